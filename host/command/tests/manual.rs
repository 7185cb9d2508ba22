//! The manual says what the program says: every help text, every refusal with what to do, every kind of line; and the manual page has every command.

use assert_cmd::cargo::cargo_bin;
use cichowiej::REFUSALS;
use cichowiej_command::curve::warnings::Kind;
use std::fs;
use std::path::Path;
use std::process::Command;

fn manual() -> String {
    fs::read_to_string(Path::new(env!("CARGO_MANIFEST_DIR")).join("../../docs/MANUAL.md")).unwrap()
}

fn said(words: &[&str]) -> String {
    let out = Command::new(cargo_bin("cichowiej")).args(words).output().unwrap();
    assert!(out.status.success(), "{words:?}");
    String::from_utf8(out.stdout).unwrap()
}

/// The commands that `cichowiej --help` lists.
fn commands() -> Vec<String> {
    let help = said(&["--help"]);
    let (_, list) = help.split_once("Commands:\n").unwrap();
    let lines = list.lines().take_while(|line| !line.is_empty());
    let names = lines.filter_map(|line| line.split_whitespace().next().map(String::from));
    names.filter(|name| name != "help").collect()
}

/// Indented by four, as the manual has them.
#[test]
fn every_help_text_is_in_the_manual() {
    let (manual, commands) = (manual(), commands());
    assert!(commands.len() >= 3);
    for command in commands {
        let help = said(&[&command, "--help"]);
        let lines = help.trim_end().lines().map(|line| if line.is_empty() { String::new() } else { format!("    {line}") });
        let block = lines.collect::<Vec<String>>().join("\n");
        assert!(manual.contains(&block), "the manual has another help text for {command}:\n{block}");
        assert!(help.contains("Example: cichowiej"), "{command}");
    }
}

#[test]
fn every_refusal_is_in_the_manual() {
    let manual = manual();
    for refusal in REFUSALS {
        let row = format!("| {} | {} | {} |", refusal.number(), refusal.name(), refusal.advice());
        assert!(manual.contains(&row), "{row}");
    }
}

#[test]
fn every_line_of_a_script_is_in_the_manual() {
    let folder = tempfile::tempdir().unwrap();
    let script = folder.path().join("s.txt");
    fs::write(&script, "frobnicate\n").unwrap();
    let out = Command::new(cargo_bin("cichowiej")).arg("run").arg(&script).output().unwrap();
    let message = String::from_utf8(out.stderr).unwrap();
    let (_, kinds) = message.trim_end().split_once("take one of ").unwrap();
    let kinds: Vec<&str> = kinds.split(", ").collect();
    assert_eq!(kinds.len(), 17);
    let manual = manual();
    for kind in kinds {
        assert!(manual.contains(&format!("| `{kind}")) || manual.contains(&format!("`{kind} ")), "{kind}");
    }
}

#[test]
fn the_manual_page_has_every_command() {
    let page = said(&["man"]);
    assert!(page.starts_with(".TH CICHOWIEJ 1\n.SH NAME\n"));
    for command in commands() {
        assert!(page.contains(&format!("\n.SS cichowiej {command}")), "{command}");
    }
    let folder = tempfile::tempdir().unwrap();
    let file = folder.path().join("cichowiej.1");
    fs::write(&file, page).unwrap();
    match Command::new("groff").args(["-man", "-ww", "-z", "-Tutf8"]).arg(&file).output() {
        Ok(out) => assert!(out.status.success() && out.stderr.is_empty(), "{}", String::from_utf8_lossy(&out.stderr)),
        Err(_) => println!("NOT TRIED: no groff here"),
    }
}

#[test]
fn every_kind_of_warning_is_in_the_manual() {
    let manual = manual();
    for kind in Kind::ALL {
        assert_eq!(manual.matches(&format!("\n| `{}` | ", kind.name())).count(), 1, "{}", kind.name());
    }
}
