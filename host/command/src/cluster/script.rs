//! The commands that make a curve's points, each for itself: as a job array, as lines, or for a person.

use crate::curve::plan::Plan;
use std::fmt::Display;
use std::path::{Path, absolute};

/// How the commands are written.
#[derive(Debug, Clone, Copy, PartialEq, Eq, clap::ValueEnum)]
pub enum Kind {
    /// A job array for sbatch, one task a point
    Slurm,
    /// One command a line, for GNU parallel or sh
    Parallel,
    /// Number, name and command of each point, for a person
    List,
}

/// The parts that the commands share, quoted for a shell, their paths absolute: they can be started in any folder.
pub struct Commands {
    program: String,
    head: String,
    folder: String,
}

impl Commands {
    pub fn new(head: &Path, folder: &Path) -> Result<Self, String> {
        let program = std::env::current_exe().map_err(|e| format!("the program's own path: {e}"))?;
        Ok(Self { program: quoted(&program)?, head: quoted(head)?, folder: quoted(folder)? })
    }

    /// What makes a point; its number may be a shell's word.
    pub fn point(&self, number: impl Display) -> String {
        format!("{} curve {} --point {number} --points {}", self.program, self.head, self.folder)
    }

    pub fn text(&self, plan: &Plan, kind: Kind) -> String {
        match kind {
            Kind::Slurm => self.slurm(plan),
            Kind::Parallel => (0..plan.points.len()).map(|number| self.point(number) + "\n").collect(),
            Kind::List => self.list(plan),
        }
    }

    fn slurm(&self, plan: &Plan) -> String {
        let last = plan.points.len().saturating_sub(1);
        let command = self.point("\"${SLURM_ARRAY_TASK_ID:?this script is for sbatch}\"");
        format!("#!/bin/sh\n#SBATCH --job-name=cichowiej\n#SBATCH --array=0-{last}\n#SBATCH --ntasks=1\nexec {command}\n")
    }

    fn list(&self, plan: &Plan) -> String {
        let wide = plan.points.iter().map(|point| point.name().chars().count()).max().unwrap_or(0);
        let line = |(number, point): (usize, &crate::curve::plan::Point)| {
            format!("{number:>4}  {:<wide$}  {}\n", point.name(), self.point(number))
        };
        plan.points.iter().enumerate().map(line).collect()
    }
}

/// A path, absolute, as one word of a shell's. A line break would make two lines of a command.
fn quoted(path: &Path) -> Result<String, String> {
    let whole = absolute(path).map_err(|e| format!("{}: {e}", path.display()))?;
    match whole.to_str() {
        Some(text) if !text.contains(char::is_control) => Ok(word(text)),
        _ => Err(format!(
            "{path:?}: a command's line takes no path that is not UTF-8 or has a line break or another control character"
        )),
    }
}

fn word(text: &str) -> String {
    let plain = |c: char| c.is_ascii_alphanumeric() || "/._-+,:@%".contains(c);
    if text.chars().all(plain) { text.into() } else { format!("'{}'", text.replace('\'', r"'\''")) }
}
