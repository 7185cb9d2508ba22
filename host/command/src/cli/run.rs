//! `cichowiej run`.

use super::interrupt::Interrupt;
use super::{Failure, Input, print};
use crate::curve::{named, other_constants};
use crate::script::Script;
use crate::standing::study_from;
use std::path::PathBuf;
use std::process::ExitCode;

#[derive(clap::Args)]
#[command(after_help = "Example: cichowiej run examples/sheet.txt\n\n\
    A script has one call a line; docs/MANUAL.md has them all. A refusal prints its line, number, name and what to change, and ends with 1.")]
pub struct Arguments {
    /// The script
    script: PathBuf,
    /// Print numbers as the 16 hexadecimal digits of their bits
    #[arg(long)]
    hex: bool,
    /// Begin with a saved study
    #[arg(long, value_name = "SAVE")]
    from: Option<PathBuf>,
}

pub fn run(arguments: &Arguments) -> Result<ExitCode, Failure> {
    let interrupt = Interrupt::heard()?;
    let script = Script::parse(&Input::read(&arguments.script)?)?;
    let study = arguments.from.as_deref().map(study_from).transpose()?;
    if let Some(study) = &study {
        print(&format!("from a save of {} steps, absorbing layer works on {}\n", study.steps(), named(study.active())))?;
        other_constants(study.grid().constants).map_or(Ok(()), |line| print(&format!("{line}\n")))?;
    }
    script.run(study, arguments.hex, &mut |answer| Ok(print(answer)?), &interrupt)?;
    Ok(ExitCode::SUCCESS)
}
