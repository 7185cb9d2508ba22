//! The examples, as they are shown.

use assert_cmd::cargo::cargo_bin;
use std::fs;
use std::path::{Path, PathBuf};
use std::process::{Command, Output};
use tempfile::tempdir;

fn top() -> PathBuf {
    Path::new(env!("CARGO_MANIFEST_DIR")).join("../..")
}

fn curve(example: &str, words: &[&str]) -> Output {
    let head = format!("examples/{example}.toml");
    Command::new(cargo_bin("cichowiej")).current_dir(top()).args(["curve", &head, "--strict"]).args(words).output().unwrap()
}

/// Every example gives a curve without a warning.
#[test]
fn the_examples_are_good() {
    let files = fs::read_dir(top().join("examples")).unwrap().map(|entry| entry.unwrap().path());
    let heads = files.filter(|path| path.extension().is_some_and(|ending| ending == "toml"));
    let names: Vec<String> = heads.map(|path| path.file_stem().unwrap().to_str().unwrap().to_string()).collect();
    assert!(names.len() >= 2);
    for name in names {
        let out = curve(&name, &[]);
        let text = String::from_utf8(out.stdout).unwrap();
        assert!(out.status.success() && !text.contains("warning"), "{name}: {text}");
    }
}

/// The picture that the documents show is the one that is drawn.
#[test]
fn the_documents_picture_is_the_examples() {
    let folder = tempdir().unwrap();
    let drawn = folder.path().join("office-80.svg");
    assert!(curve("office-80", &["--svg", drawn.to_str().unwrap()]).status.success());
    let shown = top().join("docs/office-80.svg");
    assert!(
        fs::read(drawn).unwrap() == fs::read(shown).unwrap(),
        "docs/office-80.svg is another one: `make curve` draws it anew"
    );
}

/// The scripts, the second on the save of the first.
#[test]
fn the_scripts_run() {
    let folder = tempdir().unwrap();
    let examples = top().join("examples").canonicalize().unwrap();
    for words in [vec!["sheet.txt"], vec!["wetter.txt", "--from", "sheet.save"]] {
        let script = examples.join(words[0]);
        let out = Command::new(cargo_bin("cichowiej"))
            .current_dir(folder.path())
            .arg("run")
            .arg(script)
            .args(&words[1..])
            .output()
            .unwrap();
        let text = String::from_utf8(out.stdout).unwrap();
        assert!(out.status.success() && text.contains("energy ") && text.contains("plane 150 "), "{words:?}: {text}");
    }
}
