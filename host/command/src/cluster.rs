//! A curve's points on many machines that share a folder: the commands that make them (`script`), a point's file (`record`), and the readings joined from
//! such files.

pub mod record;
pub mod script;

use crate::cluster::record::{Unusable, parse, text};
use crate::cluster::script::Commands;
use crate::curve::plan::{Plan, Point};
use crate::curve::study::{Reading, Sums};
use crate::text::{Kind, open_file};
use cichowiej::write_whole;
use std::fs;
use std::io;
use std::path::{Path, PathBuf};

/// How many digits of the head's SHA-256 a point's file has in its name.
const SHORT: usize = 16;

/// A curve whose points lie in a folder, each in a file of its own.
pub struct Points<'a> {
    pub plan: &'a Plan<'a>,
    /// The head's SHA-256.
    pub digest: &'a str,
    pub folder: &'a Path,
}

impl Points<'_> {
    /// The file of a point. Another head's files have other names.
    pub fn path(&self, number: usize) -> PathBuf {
        let short = self.digest.get(..SHORT).unwrap_or(self.digest);
        self.folder.join(format!("{short}-{number}.toml"))
    }

    pub fn paths(&self) -> impl Iterator<Item = PathBuf> + '_ {
        (0..self.plan.points.len()).map(|number| self.path(number))
    }

    /// Makes the folder, if it is not there.
    pub fn make_folder(&self) -> Result<(), String> {
        fs::create_dir_all(self.folder).map_err(|e| format!("{}: {e}", self.folder.display()))
    }

    pub fn write(&self, number: usize, reading: &Reading) -> Result<(), String> {
        let path = self.path(number);
        let failed = |e: &dyn std::fmt::Display| format!("{}: {e}", path.display());
        let text = text(self.digest, number, reading).map_err(|e| failed(&e))?;
        write_whole(&path, text.as_bytes()).map_err(|e| failed(&e))
    }

    fn read(&self, number: usize) -> Result<Reading, Unusable> {
        let bytes = open_file(&self.path(number)).and_then(|file| Kind::POINT.read(file)).map_err(|e| match e.kind() {
            io::ErrorKind::NotFound => Unusable::Absent,
            _ => Unusable::Unreadable(e),
        })?;
        let reading = parse(&bytes, self.digest, number)?;
        if self.fits(&reading) { Ok(reading) } else { Err(Unusable::Damaged) }
    }

    /// As many sums as the head has frequencies.
    fn fits(&self, reading: &Reading) -> bool {
        let count = self.plan.frequencies.len();
        let reflected = self.plan.head.planes.reflected.map(|_| count);
        let fit = |sums: &Sums| sums.transmitted.len() == count && sums.reflected.as_ref().map(Vec::len) == reflected;
        fit(&reading.sums) && fit(&reading.early)
    }

    /// The readings in the order of the points, all of them or a message that names each point without one, and its command.
    pub fn gather(&self, commands: &Commands) -> Result<Vec<Reading>, String> {
        let (mut readings, mut missing) = (Vec::new(), Vec::new());
        for number in 0..self.plan.points.len() {
            match self.read(number) {
                Ok(reading) => readings.push(reading),
                Err(why) => missing.push(self.told(number, &why, commands)),
            }
        }
        if missing.is_empty() {
            return Ok(readings);
        }
        let told = format!("{} of {} points are missing, and nothing was written", missing.len(), self.plan.points.len());
        Err(format!("{}: {told}{}", self.folder.display(), missing.concat()))
    }

    /// A point without a reading.
    fn told(&self, number: usize, why: &Unusable, commands: &Commands) -> String {
        let name = self.plan.points.get(number).map_or(String::new(), Point::name);
        let (file, command) = (self.path(number), commands.point(number));
        format!("\npoint {number}, {name}: {}: {why}; its command:\n  {command}", file.display())
    }
}
