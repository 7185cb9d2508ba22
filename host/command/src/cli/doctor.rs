//! `cichowiej doctor`.

use super::{Failure, print};
use crate::doctor::self_test;
use std::process::{Command, ExitCode};
use std::time::Instant;

#[derive(clap::Args)]
#[command(
    after_help = "Example: cichowiej doctor\n\nExit status: 0 if all is well, 1 if the self test fails. What is not found is no fault: the line says what it is for."
)]
pub struct Arguments {}

/// Programs that some commands want, and what for.
const PROGRAMS: [(&str, &str, &str); 4] = [
    ("rt", "version", "to prove the engine anew"),
    ("cargo", "--version", "to build the command anew"),
    ("sbatch", "--version", "to run a plan on a cluster (curve --plan slurm)"),
    ("parallel", "--version", "to run a plan on several machines (curve --plan parallel)"),
];

pub fn run(_: &Arguments) -> Result<ExitCode, Failure> {
    let cores = std::thread::available_parallelism().map_or("unknown".into(), |n| n.to_string());
    print(&format!("{}\ncores: {cores}\n", cichowiej::ENGINE))?;
    for (name, word, purpose) in PROGRAMS {
        print(&format!("{name}: {}\n", version(name, word).unwrap_or(format!("not found; it is wanted {purpose}"))))?;
    }
    let begun = Instant::now();
    let mut well = true;
    for (line, good) in self_test() {
        print(&format!("{}: {line}\n", if good { "well" } else { "NOT WELL" }))?;
        well &= good;
    }
    print(&format!("self test: {}, {} ms\n", if well { "all is well" } else { "FAILED" }, begun.elapsed().as_millis()))?;
    Ok(ExitCode::from(u8::from(!well)))
}

/// The first line that a program prints of itself.
fn version(name: &str, word: &str) -> Option<String> {
    let out = Command::new(name).arg(word).output().ok().filter(|out| out.status.success())?;
    let text = String::from_utf8_lossy(&out.stdout);
    text.lines().next().map(|line| line.trim().to_string())
}
