//! Folders that someone has been at.

use crate::place::Place;
use std::fs;
use std::os::unix::fs::symlink;
use std::process::Command;

#[test]
fn damage_is_named_with_the_refusal_it_meets() {
    let place = Place::new();
    let ids: Vec<String> = (1..=7).map(|steps| place.keep(20, steps, &[])).collect();
    assert_eq!(place.good(&["verify"]), "7 saves, 0 damaged\n");
    place.flip(&ids[0], 0);
    let short = fs::read(place.kept(&ids[1], ".save")).unwrap();
    fs::write(place.kept(&ids[1], ".save"), &short[..short.len() / 2]).unwrap();
    place.edit(&ids[2], "steps = 3", "steps = 33");
    place.edit(&ids[3], "steps = 4", "steps");
    fs::remove_file(place.kept(&ids[4], ".save")).unwrap();
    // a number that the engine takes, but another one
    place.flip(&ids[5], place.files()[place.kept(&ids[5], ".save").file_name().unwrap().to_str().unwrap()].len() - 8);
    fs::write(place.path("standing/a copy.save"), &short).unwrap();
    fs::write(place.path("standing/.tmpAbCdEf"), "G").unwrap();
    fs::write(place.path("standing/README"), "trials of November").unwrap();
    fs::write(place.path("standing/plan.toml"), "what = 1").unwrap();
    let (status, out, _) = place.run(&["verify"]);
    let line = |id: &str| {
        let found: Vec<&str> = out.lines().filter(|line| line.contains(id)).collect();
        assert_eq!(found.len(), 1, "{id}: {out}");
        found[0].to_string()
    };
    assert_eq!(status, 1);
    assert!(line(&ids[0]).contains(".save: refused as 14 BadMark: "), "{out}");
    assert!(line(&ids[1]).contains(".save: refused as 13 Short: "), "{out}");
    assert!(line(&ids[2]).ends_with(".toml: steps is 33 here and 3 in the save"), "{out}");
    assert!(line(&ids[3]).contains(".toml:"), "{out}");
    assert!(line(&ids[4]).ends_with(".toml: its save is not here"), "{out}");
    assert!(line(&ids[5]).contains(".save: its SHA-256 is ") && line(&ids[5]).contains("the engine takes it"), "{out}");
    assert!(!out.contains(&ids[6]) && !out.contains("README") && !out.contains("plan"), "{out}");
    assert!(line("a copy").ends_with("a copy.save: its name is no SHA-256"), "{out}");
    assert!(out.ends_with("1 leftover of interrupted writes, harmless\n7 saves, 1 note without its save, 7 damaged\n"), "{out}");
}

/// A note is no save.
#[test]
fn saves_are_counted_as_saves() {
    let place = Place::new();
    let ids: Vec<String> = (1..=3).map(|steps| place.keep(20, steps, &[])).collect();
    let counted = |words: &str| {
        let (status, out, _) = place.run(&["verify"]);
        assert_eq!((status, out.lines().last()), (i32::from(!words.ends_with(" 0 damaged")), Some(words)), "{out}");
        out.matches("its save is not here").count()
    };
    assert_eq!(counted("3 saves, 0 damaged"), 0);
    fs::remove_file(place.kept(&ids[0], ".save")).unwrap();
    assert_eq!(counted("2 saves, 1 note without its save, 1 damaged"), 1);
    fs::remove_file(place.kept(&ids[1], ".save")).unwrap();
    assert_eq!(counted("1 save, 2 notes without their saves, 2 damaged"), 2);
    place.flip(&ids[2], 0);
    assert_eq!(counted("1 save, 2 notes without their saves, 3 damaged"), 2);
}

/// Someone has been at the notes: no save is hidden, and nothing hangs.
#[test]
fn every_save_is_listed_whatever_the_notes_say() {
    let place = Place::new();
    let ids: Vec<String> = (1..=6).map(|steps| place.keep(20, steps, &["--label", &format!("n{steps}")])).collect();
    let whole = |id: &str| place.kept(id, ".save").file_stem().unwrap().to_str().unwrap().to_string();
    let grows = |id: &str, from: &str| place.edit(id, "cells =", &format!("grew_from = \"{from}\"\ncells ="));
    grows(&ids[0], &whole(&ids[1]));
    grows(&ids[1], &whole(&ids[0]));
    grows(&ids[2], &"ab".repeat(32));
    fs::write(place.kept(&ids[3], ".toml"), "kept = ").unwrap();
    fs::write(place.kept(&ids[4], ".toml"), "surprise = 1\n").unwrap();
    fs::remove_file(place.kept(&ids[5], ".save")).unwrap();
    let text = place.good(&["list"]);
    let line = |id: &str| {
        let found: Vec<&str> = text.lines().filter(|line| line.trim_start_matches(['└', '─', ' ']).starts_with(id)).collect();
        assert_eq!(found.len(), 1, "{id}: {text}");
        found[0].to_string()
    };
    assert_eq!(text.matches("which grew from it").count(), 1, "{text}");
    assert!(line(&ids[0]).contains("1 step  n1") && line(&ids[1]).contains("2 steps  n2"), "{text}");
    assert!(line(&ids[2]).ends_with("n3  (grew from abababababab, which is not here)"), "{text}");
    assert!(line(&ids[3]).contains("4 steps  (note damaged: ") && line(&ids[3]).contains(".toml:1: "), "{text}");
    assert!(line(&ids[4]).contains("5 steps  (note damaged: ") && line(&ids[4]).contains("surprise"), "{text}");
    assert!(line(&ids[5]).ends_with("n6  (its save is not here)"), "{text}");
}

/// A link to nothing has the name of a file and is none.
#[test]
fn a_link_to_nothing_is_not_taken_for_a_save() {
    for ending in ["save", "toml"] {
        let place = Place::new();
        place.save("s.save", 20, 4);
        let sum = Command::new("sha256sum").arg(place.path("s.save")).output().unwrap().stdout;
        let name = format!("{}.{ending}", std::str::from_utf8(&sum[..64]).unwrap());
        fs::create_dir(place.path("standing")).unwrap();
        symlink("nowhere", place.path("standing").join(&name)).unwrap();
        let err = place.bad(&["keep", "s.save"]);
        assert!(err.contains(&format!("standing/{name}: this is a link to nothing; move it away")), "{err}");
        fs::remove_file(place.path("standing").join(&name)).unwrap();
        place.good(&["keep", "s.save"]);
    }
}

/// A pipe in the folder is not waited for, nor a folder read.
#[test]
fn what_is_no_file_is_damage() {
    let place = Place::new();
    place.keep(20, 4, &[]);
    let pipe = place.path("standing").join(format!("{}.save", "ab".repeat(32)));
    assert!(Command::new("mkfifo").arg(&pipe).status().unwrap().success());
    fs::create_dir(place.path("standing").join(format!("{}.toml", "cd".repeat(32)))).unwrap();
    let (status, out, _) = place.run(&["verify"]);
    assert!(
        status == 1
            && out.contains("abab.save: this is no file")
            && out.ends_with("\n2 saves, 1 note without its save, 2 damaged\n"),
        "{out}"
    );
    assert_eq!(place.good(&["list"]).lines().count(), 3);
}
