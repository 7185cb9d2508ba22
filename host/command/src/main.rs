//! The program `cichowiej`.

use cichowiej_command::cli::{self, Arguments};
use clap::Parser;
use std::process::ExitCode;

fn main() -> ExitCode {
    cli::main(&Arguments::parse())
}
