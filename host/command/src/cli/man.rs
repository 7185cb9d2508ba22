//! `cichowiej man`: for `make man`.

use super::{Failure, print};
use crate::man::page;
use clap::CommandFactory;
use std::process::ExitCode;

#[derive(clap::Args)]
pub struct Arguments {}

pub fn run(_: &Arguments) -> Result<ExitCode, Failure> {
    print(&page(&super::Arguments::command()))?;
    Ok(ExitCode::SUCCESS)
}
