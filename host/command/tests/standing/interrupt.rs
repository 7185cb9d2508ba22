//! Ctrl-C, and other programs at the folder.

use crate::child::{Running, make_pipe};
use crate::place::Place;
use std::fs::{self, File};
use std::io::Write;

const TOLD: &str = "cichowiej: interrupted; no file is left half written\n";

/// Nobody ever writes to the pipe.
#[test]
fn ctrl_c_ends_what_waits_for_a_pipe_and_keeps_nothing() {
    let place = Place::new();
    let id = place.keep(20, 4, &[]);
    let before = place.files();
    make_pipe(&place.path("pipe"));
    for words in [&["keep", "pipe"][..], &["resume", &id, "pipe"], &["keep", "pipe", "--folder", "other"]] {
        let child = Running::new(&mut place.command(words));
        child.waits();
        child.interrupt();
        assert_eq!(child.end(), (Some(130), TOLD.into()), "{words:?}");
    }
    assert!(place.files() == before && !place.path("other").exists());
}

/// A part of the save has come, and no more does.
#[test]
fn ctrl_c_ends_what_reads_from_a_pipe() {
    let place = Place::new();
    place.keep(20, 4, &[]);
    let before = place.files();
    make_pipe(&place.path("pipe"));
    place.save("t.save", 20, 5);
    let child = Running::new(&mut place.command(&["keep", "pipe"]));
    let mut writer = File::options().write(true).open(place.path("pipe")).unwrap();
    writer.write_all(&fs::read(place.path("t.save")).unwrap()[..1000]).unwrap();
    child.waits();
    child.interrupt();
    assert_eq!(child.end(), (Some(130), TOLD.into()));
    assert!(place.files() == before);
}

#[test]
fn a_lock_on_the_folder_holds_nothing_up() {
    let place = Place::new();
    let id = place.keep(20, 4, &["--label", "first"]);
    let folder = File::open(place.path("standing")).unwrap();
    folder.lock().unwrap();
    place.save("t.save", 20, 5);
    for words in [&["keep", "t.save"][..], &["keep", "s.save"], &["resume", &id, "two.script"]] {
        assert_eq!(Running::new(&mut place.command(words)).end().0, Some(0), "{words:?}");
    }
    assert_eq!(place.good(&["verify"]), "3 saves, 0 damaged\n");
}
