//! Saves that are kept: kept, listed, shown, compared, resumed, verified.

#[path = "../common/child.rs"]
mod child;
mod damage;
mod interrupt;
mod memory;
mod older;
mod place;

use cichowiej::Study;
use place::Place;
use std::fs;
use std::io::Write;
use std::process::{Command, Stdio};

#[test]
fn a_save_is_kept_under_its_digest_with_a_note() {
    let place = Place::new();
    let id = place.keep(20, 4, &["--label", "first"]);
    assert!(id.len() == 12 && id.bytes().all(|b| b.is_ascii_hexdigit()), "{id}");
    let bytes = fs::read(place.path("s.save")).unwrap();
    assert!(fs::read(place.kept(&id, ".save")).unwrap() == bytes);
    let sum = Command::new("sha256sum").arg(place.kept(&id, ".save")).output().unwrap().stdout;
    let name = place.kept(&id, ".save").file_stem().unwrap().to_str().unwrap().to_string();
    assert!(String::from_utf8(sum).unwrap().starts_with(&name));
    let note = fs::read_to_string(place.kept(&id, ".toml")).unwrap();
    for line in ["label = \"first\"", "cells = [1, 1, 20]", "pole_slots = 1", "materials = 1", "steps = 4"] {
        assert!(note.lines().any(|found| found == line), "{note}");
    }
    assert!(note.contains(&format!("bytes = {}\n", bytes.len())) && !note.contains("grew_from"), "{note}");
    assert_eq!(place.files().len(), 2);
}

#[test]
fn keeping_again_changes_nothing_and_says_so() {
    let place = Place::new();
    let id = place.keep(20, 4, &["--label", "first"]);
    let before = place.files();
    // the id alone on standard output, for a script
    let (status, out, err) = place.run(&["keep", "s.save", "--label", "second"]);
    assert_eq!((status, out), (0, format!("{id}\n")));
    assert!(err.starts_with(&format!("{id} is there already, kept 2")) && err.ends_with(" as \"first\"\n"), "{err}");
    assert!(place.files() == before);
    // a save without a note gets one
    fs::remove_file(place.kept(&id, ".toml")).unwrap();
    assert!(place.good(&["list"]).ends_with("  1x1x20  4 steps  (no note)\n"));
    assert!(place.good(&["verify"]).starts_with("1 save without a note"));
    assert_eq!(place.good(&["keep", "s.save", "--label", "second"]), format!("{id}\n"));
    assert!(place.good(&["list"]).ends_with("  1x1x20  4 steps  second\n"));
    // a damaged file is not written over
    place.flip(&id, 200);
    let before = place.files();
    assert!(place.bad(&["keep", "s.save"]).contains("this file is damaged"));
    assert!(place.files() == before);
}

#[test]
fn what_is_no_save_is_not_kept() {
    let place = Place::new();
    place.save("s.save", 20, 4);
    let bytes = fs::read(place.path("s.save")).unwrap();
    let tried = |bytes: &[u8], refusal: &str| {
        fs::write(place.path("bad.save"), bytes).unwrap();
        let err = place.bad(&["keep", "bad.save"]);
        assert!(err.starts_with(&format!("cichowiej: bad.save: refused as {refusal}: ")), "{err}");
    };
    tried(b"", "13 Short");
    tried(&bytes[..bytes.len() - 1], "13 Short");
    tried(&[&bytes[..], b"!"].concat(), "16 Trailing");
    tried(b"this is no save", "14 BadMark");
    assert!(place.bad(&["keep", "nowhere.save"]).contains("nowhere.save: No such file"));
    assert!(!place.path("standing").exists());
    fs::write(place.path("file"), "").unwrap();
    assert!(place.bad(&["keep", "s.save", "--folder", "file"]).contains("file: "));
}

#[test]
fn the_folder_is_the_one_that_was_named() {
    let place = Place::new();
    place.save("s.save", 20, 4);
    for words in [&["list"][..], &["verify"], &["show", "abcd"]] {
        assert!(place.bad(words).contains("standing: No such file"));
    }
    place.good(&["keep", "s.save", "--folder", "by/option"]);
    let out = place.command(&["list"]).env("CICHOWIEJ_FOLDER", "by/option").output().unwrap();
    assert!(String::from_utf8(out.stdout).unwrap().contains("1x1x20"));
    let out = place.command(&["list", "--folder", "by"]).env("CICHOWIEJ_FOLDER", "by/option").output().unwrap();
    assert_eq!(String::from_utf8(out.stdout).unwrap(), "no saves in by\n");
    assert!(!place.path("standing").exists());
}

#[test]
fn ids_are_beginnings_that_only_one_save_has() {
    let place = Place::new();
    let id = place.keep(20, 4, &[]);
    assert_eq!(place.good(&["show", &id[..4]]), place.good(&["show", &id.to_uppercase()]));
    let whole = place.kept(&id, ".save").file_stem().unwrap().to_str().unwrap().to_string();
    assert!(place.good(&["show", &whole]).contains(&whole));
    let none = if id.starts_with("0000") { "1111" } else { "0000" };
    assert!(place.bad(&["show", none]).contains(&format!("{none}: no save in standing begins so")));
    // another one of the same twelve digits
    let other = format!("{}{}", &whole[..12], if whole.ends_with('0') { "1" } else { "0" }.repeat(52));
    fs::write(place.path("standing").join(format!("{other}.save")), "").unwrap();
    let err = place.bad(&["show", &id]);
    assert!(err.contains("2 saves in standing begin so: ") && err.contains(&whole[..13]) && err.contains(&other[..13]), "{err}");
    for misuse in ["abc", "xyzw", "", &"a".repeat(65)] {
        assert_eq!(place.run(&["show", misuse]).0, 2, "{misuse}");
    }
}

#[test]
fn what_is_resumed_grows_into_a_tree() {
    let place = Place::new();
    let root = place.keep(20, 4, &["--label", "root"]);
    let out = place.good(&["resume", &root, "two.script"]);
    let child = out.lines().last().unwrap().to_string();
    place.save("s.save", 20, 9);
    let other = place.good(&["keep", "s.save", "--label", "by hand", "--from", &root]).trim().to_string();
    let out = place.good(&["resume", &child, "two.script", "--label", "again"]);
    let grandchild = out.lines().last().unwrap().to_string();
    // the script's samples, run in one go
    let mut study = Study::from_save(&fs::read(place.kept(&root, ".save")).unwrap()).unwrap();
    study.run(&[1.0, 2.0, 1.0, 2.0]).unwrap();
    assert!(study.save().unwrap() == fs::read(place.kept(&grandchild, ".save")).unwrap());
    // all within the same second: an order of time, so that the tree is one
    for (id, second) in [(&root, 1), (&child, 2), (&other, 3), (&grandchild, 4)] {
        let path = place.kept(id, ".toml");
        let text = fs::read_to_string(&path).unwrap();
        let kept = text.lines().find(|line| line.starts_with("kept")).unwrap().to_string();
        fs::write(path, text.replace(&kept, &format!("kept = \"2026-02-28T00:00:0{second}Z\""))).unwrap();
    }
    let expected = format!(
        "{root}  2026-02-28T00:00:01Z  1x1x20  4 steps  root\n\
         ├─ {child}  2026-02-28T00:00:02Z  1x1x20  6 steps  two.script\n\
         │  └─ {grandchild}  2026-02-28T00:00:04Z  1x1x20  8 steps  again\n\
         └─ {other}  2026-02-28T00:00:03Z  1x1x20  9 steps  by hand\n"
    );
    assert_eq!(place.good(&["list"]), expected);
    assert_eq!(place.good(&["verify"]), "4 saves, 0 damaged\n");
    let shown = place.good(&["show", &root]);
    assert!(shown.contains(&format!("children        {child}  two.script\n                {other}  by hand\n")), "{shown}");
    assert!(place.good(&["show", &child]).contains(&format!("grew from       {root}  root\n")));
}

/// A pipe gives its table once, and so it is read once.
#[test]
fn what_is_resumed_with_a_table_from_a_pipe_is_the_same() {
    let place = Place::new();
    let root = place.keep(20, 4, &[]);
    let by_file = place.good(&["resume", &root, "two.script"]);
    let resumed = |script: &str| {
        fs::write(place.path("pipe.script"), script).unwrap();
        let mut command = place.command(&["resume", &root, "pipe.script"]);
        let mut child = command.stdin(Stdio::piped()).stdout(Stdio::piped()).stderr(Stdio::piped()).spawn().unwrap();
        child.stdin.take().unwrap().write_all(b"1.0 2.0\n").unwrap();
        let out = child.wait_with_output().unwrap();
        (out.status.code(), String::from_utf8(out.stdout).unwrap(), String::from_utf8(out.stderr).unwrap())
    };
    let (status, out, err) = resumed("run 2 table /dev/stdin\n");
    assert_eq!((status, &out), (Some(0), &by_file));
    assert!(err.contains("is there already") && err.contains("as \"two.script\""), "{err}");
    // the second table finds nothing more
    let before = place.files();
    let (status, out, err) = resumed("run 2 table /dev/stdin\nrun 2 table /dev/stdin\n");
    assert!(status == Some(1) && out.is_empty() && err.contains("pipe.script:2: /dev/stdin: there is no number in it"), "{err}");
    assert!(place.files() == before);
}

#[test]
fn a_resume_that_fails_keeps_nothing() {
    let place = Place::new();
    let root = place.keep(20, 4, &[]);
    let before = place.files();
    assert!(place.bad(&["resume", &root, "nowhere.script"]).contains("nowhere.script: "));
    fs::write(place.path("bad.script"), "energy\nfly 3\n").unwrap();
    assert!(place.bad(&["resume", &root, "bad.script"]).contains("bad.script:2: "));
    // another study would not have grown from this one
    fs::write(place.path("other.script"), "energy\nsize 1 1 9\npitch 1mm courant=0.5\n").unwrap();
    assert!(place.bad(&["resume", &root, "other.script"]).contains("other.script:3: it begins another study"));
    // what a script leaves as it was is there already
    fs::write(place.path("nothing.script"), "").unwrap();
    let (status, out, err) = place.run(&["resume", &root, "nothing.script"]);
    assert_eq!((status, out), (0, format!("{root}\n")));
    assert!(err.starts_with(&format!("{root} is there already")), "{err}");
    assert!(place.files() == before);
}

#[test]
fn a_save_is_shown() {
    let place = Place::new();
    let id = place.keep(20, 4, &["--label", "a\nb\u{1b}[31m"]);
    let shown = place.good(&["show", &id]);
    let value = |name: &str| {
        let line =
            shown.lines().find(|line| line.starts_with(&format!("{name:<15} "))).unwrap_or_else(|| panic!("{name}: {shown}"));
        line[16..].to_string()
    };
    assert_eq!(value("label"), "a\\nb\\u{1b}[31m");
    assert_eq!(value("cells"), "1x1x20");
    assert_eq!(value("pitch"), "0.001, 0.001, 0.001 m");
    assert_eq!(value("Courant number"), "0.500000");
    assert_eq!(value("constants"), "old");
    assert_eq!(value("periodic"), "no axis");
    assert_eq!(value("layer works on"), "no axis");
    assert_eq!(value("pole slots"), "1");
    assert_eq!(value("steps"), "4");
    assert_eq!(value("grew from"), "nothing kept");
    assert_eq!(value("children"), "none");
    let study = Study::from_save(&fs::read(place.path("s.save")).unwrap()).unwrap();
    assert_eq!(value("energy"), format!("{:?} J", study.total_energy().unwrap()));
    assert_eq!(value("time"), format!("{:?} s", study.time()));
    place.edit(&id, "steps = 4", "steps = 5");
    assert!(place.good(&["show", &id]).contains("note damaged    steps is 5 here and 4 in the save\n"));
}

#[test]
fn two_saves_are_compared() {
    let place = Place::new();
    let (first, second) = (place.keep(20, 4, &[]), place.keep(20, 5, &[]));
    assert_eq!(place.good(&["compare", &first, &first]), "the saves are equal\n");
    let text = place.good(&["compare", &first, &second]);
    assert!(text.lines().any(|line| line == "GH  steps: 4 and 5"), "{text}");
    assert!(text.lines().any(|line| line.starts_with("AX  ") && line.contains("ex of the incident wave at k = ")), "{text}");
    let longer = place.keep(21, 4, &[]);
    assert!(place.good(&["compare", &first, &longer]).starts_with("the sizes differ, 1x1x20 and 1x1x21 cells"));
    place.flip(&second, 40);
    assert!(place.bad(&["compare", &first, &second]).contains("its SHA-256 is "));
}

/// A save from before there was a choice of constants, kept, and taken up and kept again: a byte more, and the same study.
#[test]
fn older_saves_are_kept_as_they_are() {
    let place = Place::new();
    fs::write(place.path("nothing.script"), "").unwrap();
    for (name, id) in [("small", "14f2999ed2af"), ("poles", "32a0c770593f")] {
        let path = format!("{}/../../oracle/compare/old/{name}.save", env!("CARGO_MANIFEST_DIR"));
        let bytes = fs::read(&path).unwrap();
        let old = place.good(&["keep", &path, "--label", name]).trim().to_string();
        assert_eq!(old, id, "{name} is not the save that the library before wrote");
        assert!(fs::read(place.kept(&old, ".save")).unwrap() == bytes);
        let study = Study::from_save(&bytes).unwrap();
        let [nx, ny, nz] = study.grid().cells;
        let sizes = format!("{nx}x{ny}x{nz}  {} step", study.steps());
        assert!(place.good(&["list"]).lines().any(|line| line.contains(&sizes) && line.ends_with(name)), "{name}");
        let shown = place.good(&["show", &old]);
        assert!(shown.contains("constants       old\n") && shown.contains(&format!("length          {} bytes\n", bytes.len())));
        let new = place.good(&["resume", &old, "nothing.script"]).trim().to_string();
        assert_eq!(fs::read(place.kept(&new, ".save")).unwrap().len(), bytes.len() + 1);
        let told = "the saves are of the same study; one is from an older library, which wrote no byte for the constants\n";
        assert_eq!(place.good(&["compare", &old, &new]), told);
        assert_eq!(place.good(&["compare", &old, &old]), "the saves are equal\n");
        // without its note the list reads the save itself, its beginning alone
        fs::remove_file(place.kept(&old, ".toml")).unwrap();
        let listed = place.good(&["list"]);
        assert!(listed.lines().any(|line| line.contains(&sizes) && line.ends_with("(no note)")), "{listed}");
        place.good(&["keep", &path]);
    }
    assert_eq!(place.good(&["verify"]), "4 saves, 0 damaged\n");
}

#[test]
fn help_has_an_example_and_a_closed_pipe_is_no_fault() {
    let place = Place::new();
    place.keep(20, 4, &[]);
    for command in ["keep", "list", "show", "compare", "verify", "resume"] {
        let help = place.good(&[command, "--help"]);
        assert!(help.contains(&format!("Example: cichowiej {command}")) && help.contains("CICHOWIEJ_FOLDER"), "{help}");
    }
    let mut child = place.command(&["list"]).stdout(Stdio::piped()).spawn().unwrap();
    drop(child.stdout.take());
    assert_eq!(child.wait().unwrap().code(), Some(0));
    assert_eq!(place.run(&["keep"]).0, 2);
    assert_eq!(place.run(&["resume", "abcd"]).0, 2);
}

/// One of them writes the note, and the others find it.
#[test]
fn many_at_a_time_leave_one_note() {
    let place = Place::new();
    place.save("s.save", 20, 4);
    let keep = |label: &str| {
        place.command(&["keep", "s.save", "--label", label]).stdout(Stdio::null()).stderr(Stdio::piped()).spawn().unwrap()
    };
    for round in 0..6 {
        let children: Vec<_> = (0..8).map(|n| keep(&format!("n{n}"))).collect();
        let outs: Vec<_> = children.into_iter().map(|child| child.wait_with_output().unwrap()).collect();
        assert!(outs.iter().all(|out| out.status.success()));
        let texts: Vec<String> = outs.into_iter().map(|out| String::from_utf8(out.stderr).unwrap()).collect();
        let first: Vec<usize> = (0..8).filter(|n| !texts[*n].contains("already")).collect();
        assert_eq!(first.len(), 1, "{texts:?}");
        let told = format!(" as \"n{}\"\n", first[0]);
        assert_eq!(texts.iter().filter(|text| text.ends_with(&told)).count(), 7, "round {round}: {texts:?}");
        fs::remove_dir_all(place.path("standing")).unwrap();
    }
}
