//! A head that the tests change, and the command run on it.

// each test's program uses a part of it
#![allow(dead_code)]

use assert_cmd::cargo::cargo_bin;
use std::fs;
use std::path::PathBuf;
use std::process::Command;
use tempfile::{TempDir, tempdir};

/// A small head that runs in a moment.
pub const HEAD: &str = r#"title = "A test"
periodic = ["x", "y"]

[grid]
cells = [1, 1, 90]
pitch = "1 mm"
courant = 0.5

[edge.layer]
axes = ["z"]
thickness = 10

[wave.injector]
k0 = 20

[source.modulated]
frequency = "10 GHz"
width = "80 ps"
delay = "400 ps"

[planes]
transmitted = 70
reflected = 15

[gauge]
frequencies = ["8 GHz", "10 GHz"]

[run]
steps = 3000

[sheet]
cells = { z = [40, 42] }

[[sheet.moisture]]
percent = 5
material = { eps_inf = 2.0, sigma = 0.1 }

[[sheet.moisture]]
percent = 10
material = { eps_inf = 3.0, poles = [{ debye = { delta_eps = 2.0, tau = "4 ps" } }] }
"#;

/// A folder with a head in it.
pub struct Folder(TempDir);

impl Folder {
    pub fn new(head: &str) -> Self {
        let folder = tempdir().unwrap();
        fs::write(folder.path().join("head.toml"), head).unwrap();
        Self(folder)
    }

    pub fn path(&self, name: &str) -> PathBuf {
        self.0.path().join(name)
    }

    /// `cichowiej curve head.toml`, in the folder.
    pub fn command(&self) -> Command {
        self.command_of("head.toml")
    }

    /// The same of another file.
    pub fn command_of(&self, file: &str) -> Command {
        let mut command = Command::new(cargo_bin("cichowiej"));
        command.current_dir(self.0.path()).args(["curve", file]);
        command
    }

    /// What it ends with and prints, with more words behind it; without the line on what the studies take.
    pub fn curve(&self, words: &[&str]) -> (i32, String, String) {
        let (status, out, err) = self.told(words);
        (status, out, without_studies(&err))
    }

    /// All that it prints.
    pub fn told(&self, words: &[&str]) -> (i32, String, String) {
        let out = self.command().args(words).output().unwrap();
        let text = |bytes: Vec<u8>| String::from_utf8(bytes).unwrap();
        (out.status.code().unwrap(), text(out.stdout), text(out.stderr))
    }
}

/// Whether a line says what the studies take.
pub fn is_of_studies(line: &str) -> bool {
    line.contains(" stud") && line.contains("B") && line.starts_with(|c: char| c.is_ascii_digit())
}

pub fn without_studies(text: &str) -> String {
    text.split_inclusive('\n').filter(|line| !is_of_studies(line)).collect()
}

/// The head with one line put in the place of another.
pub fn with(old: &str, new: &str) -> Folder {
    assert_eq!(HEAD.matches(old).count(), 1, "{old}");
    Folder::new(&HEAD.replace(old, new))
}
