//! A folder to work in, and the commands run in it.

use assert_cmd::cargo::cargo_bin;
use cichowiej::{Constants, Grid, Study};
use std::collections::BTreeMap;
use std::fs;
use std::path::PathBuf;
use std::process::Command;
use tempfile::{TempDir, tempdir};

/// Two steps more.
pub const SCRIPT: &str = "run 2 table two.txt\n";

/// A folder to work in.
pub struct Place(TempDir);

impl Place {
    pub fn new() -> Self {
        let place = Self(tempdir().unwrap());
        fs::write(place.path("two.script"), SCRIPT).unwrap();
        fs::write(place.path("two.txt"), "1.0 2.0\n").unwrap();
        place
    }

    pub fn path(&self, name: &str) -> PathBuf {
        self.0.path().join(name)
    }

    /// A save of so many cells and steps.
    pub fn save(&self, name: &str, cells: usize, steps: usize) {
        let (pitch, constants) = ([1e-3; 3], Constants::Old);
        let grid = Grid { cells: [1, 1, cells], pitch, dt: 0.5 * constants.largest_dt(pitch), pole_slots: 1, constants };
        let mut study = Study::open(&grid).unwrap();
        study.injector_z(3).unwrap();
        study.run(&vec![1.0; steps]).unwrap();
        fs::write(self.path(name), study.save().unwrap()).unwrap();
    }

    pub fn command(&self, words: &[&str]) -> Command {
        let mut command = Command::new(cargo_bin("cichowiej"));
        command.current_dir(self.0.path()).env_remove("CICHOWIEJ_FOLDER").args(words);
        command
    }

    /// What it ends with and prints.
    pub fn run(&self, words: &[&str]) -> (i32, String, String) {
        let out = self.command(words).output().unwrap();
        let text = |bytes: Vec<u8>| String::from_utf8(bytes).unwrap();
        (out.status.code().unwrap(), text(out.stdout), text(out.stderr))
    }

    pub fn good(&self, words: &[&str]) -> String {
        let (status, out, err) = self.run(words);
        assert!(status == 0 && err.is_empty(), "{words:?}: {status} {err}");
        out
    }

    pub fn bad(&self, words: &[&str]) -> String {
        let (status, out, err) = self.run(words);
        assert!(status == 1 && out.is_empty() && err.starts_with("cichowiej: "), "{words:?}: {status} {out} {err}");
        err
    }

    /// A save that is kept, its 12 digits.
    pub fn keep(&self, cells: usize, steps: usize, words: &[&str]) -> String {
        self.save("s.save", cells, steps);
        self.good(&[&["keep", "s.save"], words].concat()).trim().to_string()
    }

    /// The file that begins and ends so, and that is the only one.
    pub fn kept(&self, id: &str, ending: &str) -> PathBuf {
        let named = |name: &&String| name.starts_with(id) && name.ends_with(ending);
        let files = self.files();
        let names: Vec<&String> = files.keys().filter(named).collect();
        assert_eq!(names.len(), 1, "{id} {ending}");
        self.path("standing").join(names[0])
    }

    pub fn files(&self) -> BTreeMap<String, Vec<u8>> {
        let entries = fs::read_dir(self.path("standing")).unwrap().map(|entry| entry.unwrap());
        entries.map(|entry| (entry.file_name().into_string().unwrap(), fs::read(entry.path()).unwrap())).collect()
    }

    /// A note with one text put in the place of another.
    pub fn edit(&self, id: &str, old: &str, new: &str) {
        let path = self.kept(id, ".toml");
        let text = fs::read_to_string(&path).unwrap();
        assert_eq!(text.matches(old).count(), 1, "{old} in {text}");
        fs::write(path, text.replace(old, new)).unwrap();
    }

    /// Flips the lowest bit of a byte of a kept save.
    pub fn flip(&self, id: &str, at: usize) {
        let path = self.kept(id, ".save");
        let mut bytes = fs::read(&path).unwrap();
        bytes[at] ^= 1;
        fs::write(path, bytes).unwrap();
    }
}
