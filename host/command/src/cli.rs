//! The command's words, and what its parts share: failures, standard output, files.

pub mod curve;
pub mod doctor;
pub mod interrupt;
pub mod man;
pub mod run;
pub mod standing;

use crate::digest::sha256;
use crate::head::trouble::Trouble;
use crate::text::{Kind, plain_lines};
use clap::{Parser, Subcommand};
use std::io::{self, Write};
use std::path::{Path, PathBuf};
use std::process::ExitCode;

#[derive(Parser)]
#[command(name = "cichowiej", version, about = "Computes what a microwave gauge reads")]
pub struct Arguments {
    #[command(subcommand)]
    command: Command,
}

#[derive(Subcommand)]
enum Command {
    /// Compute the curve of a gauge head: transmission and phase over the sheet's moisture
    Curve(curve::Arguments),
    /// Run a script: a study as a text of calls, one a line
    Run(run::Arguments),
    #[command(flatten)]
    Standing(standing::Command),
    /// Say which engine this is and what is installed, and try it for a second
    Doctor(doctor::Arguments),
    /// Print the manual page
    #[command(hide = true)]
    Man(man::Arguments),
}

/// Why nothing came out, or not all of it.
pub enum Failure {
    Message(String),
    Interrupted,
}

impl From<String> for Failure {
    fn from(message: String) -> Self {
        Self::Message(message)
    }
}

/// Does what the words ask for, and tells of it on standard error where it fails.
pub fn main(arguments: &Arguments) -> ExitCode {
    let done = match &arguments.command {
        Command::Curve(arguments) => curve::run(arguments),
        Command::Run(arguments) => run::run(arguments),
        Command::Doctor(arguments) => doctor::run(arguments),
        Command::Man(arguments) => man::run(arguments),
        Command::Standing(command) => standing::run(command),
    };
    let (message, status) = match done {
        Ok(code) => return code,
        Err(Failure::Message(message)) => (message, 1),
        Err(Failure::Interrupted) => (interrupt::MESSAGE.into(), interrupt::STATUS),
    };
    // where nobody reads the message, the status still tells
    let _ = writeln!(io::stderr(), "cichowiej: {}", plain_lines(&message));
    ExitCode::from(status)
}

/// A file of text as it was read.
pub struct Input {
    pub path: PathBuf,
    pub name: String,
    pub text: String,
    pub digest: String,
}

impl Input {
    pub fn read(path: &Path) -> Result<Self, String> {
        let text = Kind::INPUT.read_text(path)?;
        Ok(Self { path: path.into(), name: path.display().to_string(), digest: sha256(text.as_bytes()), text })
    }

    /// A trouble with the file's name and line.
    pub fn located(&self, trouble: &Trouble) -> String {
        trouble.located(&self.name, &self.text)
    }
}

/// Standard output may be a pipe that nobody reads any more: that is no fault.
pub fn print(text: &str) -> Result<(), String> {
    let mut out = io::stdout();
    match out.write_all(text.as_bytes()).and_then(|()| out.flush()) {
        Err(e) if e.kind() != io::ErrorKind::BrokenPipe => Err(format!("standard output: {e}")),
        _ => Ok(()),
    }
}
