//! What the studies of a curve take, and how many of them are run at a time.

mod common;

use assert_cmd::cargo::cargo_bin;
use common::{Folder, HEAD, is_of_studies};
use std::process::Command;

/// 90 cells of 30 doubles and a material's number, 6 tables of 92, two lines of 138, and the block: 30,658 bytes.
#[test]
fn a_curve_says_what_its_studies_take() {
    let folder = Folder::new(HEAD);
    let line = |words: &[&str]| {
        let (status, _, err) = folder.told(words);
        let line = err.lines().next().unwrap().to_string();
        assert!(status == 0 && is_of_studies(&line), "{err}");
        line
    };
    assert_eq!(line(&["--jobs", "2"]), "3 studies of 31 kB each, 2 at a time");
    assert_eq!(line(&["--jobs", "9"]), "3 studies of 31 kB each, 3 at a time");
    assert_eq!(line(&["--point", "0"]), "1 study of 31 kB");
    assert_eq!(line(&["--plan", "slurm"]), "3 studies of 31 kB each");
}

/// Six studies of 193 MB in 900 MB of addresses.
#[test]
fn no_more_studies_are_run_at_a_time_than_fit() {
    let more: String =
        [11, 12, 13].map(|m| format!("\n[[sheet.moisture]]\npercent = {m}\nmaterial = {{ eps_inf = 2.0 }}\n")).concat();
    let large = HEAD
        .replace("cells = [1, 1, 90]", "cells = [128, 128, 60]")
        .replace("transmitted = 70", "transmitted = 45")
        .replace("z = [40, 42]", "z = [30, 32]")
        .replace(", poles = [{ debye = { delta_eps = 2.0, tau = \"4 ps\" } }]", "")
        .replace("steps = 3000", "steps = 1");
    let folder = Folder::new(&(large + &more));
    let limited = |limit: &str, words: &str| {
        let script = format!("ulimit -c 0; ulimit -v {limit}; exec \"$0\" curve head.toml {words}");
        let mut command = Command::new("sh");
        command.args(["-c", &script]).arg(cargo_bin("cichowiej")).current_dir(folder.path(""));
        let out = command.output().unwrap();
        (out.status.code(), String::from_utf8(out.stderr).unwrap())
    };
    let (status, err) = limited("900000", "--jobs 6");
    assert_eq!(status, Some(0), "{err}");
    assert!(err.starts_with("6 studies of 193 MB each, 3 at a time: ") && err.contains(" MB are free\n"), "{err}");
    // one that has no room is not begun
    for (limit, words) in [
        ("250000", "--jobs 6"),
        ("150000", "--point 1"),
        ("100000", "--plan list"),
        ("100000", "--gather"),
        ("100000", "--jobs 1"),
    ] {
        let (status, err) = limited(limit, words);
        assert!(status == Some(1) && err.starts_with("cichowiej: a study takes 193 MB, and "), "{words}: {err}");
        assert!(err.ends_with(" are free: take fewer cells, or another machine\n"), "{words}: {err}");
    }
}
