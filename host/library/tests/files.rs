//! What is written is there whole, under its name, with its mode, wherever it is.

use cichowiej::{write_new, write_whole};
use std::fs::{self, File, Permissions};
use std::os::unix::fs::{MetadataExt, PermissionsExt, symlink};
use std::path::Path;
use tempfile::tempdir;

fn names(folder: &Path) -> Vec<String> {
    let mut names: Vec<String> =
        fs::read_dir(folder).unwrap().map(|entry| entry.unwrap().file_name().into_string().unwrap()).collect();
    names.sort();
    names
}

fn mode(path: &Path) -> u32 {
    fs::metadata(path).unwrap().mode() & 0o7777
}

/// A file system of memory is below /dev, and its files are files.
#[test]
fn files_below_dev_are_files() {
    let Ok(place) = tempfile::tempdir_in("/dev/shm") else {
        println!("NOT TRIED: no /dev/shm here");
        return;
    };
    let path = place.path().join("c.csv");
    write_whole(&path, b"a long old text").unwrap();
    assert_eq!(fs::read(&path).unwrap(), b"a long old text");
    write_whole(&path, b"new").unwrap();
    assert_eq!(fs::read(&path).unwrap(), b"new");
    assert_eq!(names(place.path()), ["c.csv"]);
}

#[test]
fn an_old_file_leaves_its_mode() {
    let place = tempdir().unwrap();
    let path = place.path().join("c.csv");
    for bits in [0o600, 0o640, 0o664, 0o755] {
        fs::write(&path, "old").unwrap();
        fs::set_permissions(&path, Permissions::from_mode(bits)).unwrap();
        write_whole(&path, b"new").unwrap();
        assert_eq!((mode(&path), fs::read(&path).unwrap()), (bits, b"new".to_vec()));
    }
}

/// What a file has that is simply made here.
#[test]
fn a_new_file_has_the_umasks_mode() {
    let place = tempdir().unwrap();
    let [ours, plain] = ["ours", "plain"].map(|name| place.path().join(name));
    write_whole(&ours, b"new").unwrap();
    File::create(&plain).unwrap();
    assert_eq!(mode(&ours), mode(&plain));
}

#[test]
fn a_link_stays_and_what_it_leads_to_is_replaced() {
    let place = tempdir().unwrap();
    let path = |name: &str| place.path().join(name);
    fs::create_dir(path("far")).unwrap();
    fs::write(path("far/c.csv"), "old").unwrap();
    symlink("far/c.csv", path("near")).unwrap();
    symlink(path("near"), path("nearer")).unwrap();
    symlink("far/new.csv", path("dangling")).unwrap();
    write_whole(&path("nearer"), b"new").unwrap();
    write_whole(&path("dangling"), b"newer").unwrap();
    assert_eq!(fs::read(path("far/c.csv")).unwrap(), b"new");
    assert_eq!(fs::read(path("far/new.csv")).unwrap(), b"newer");
    assert!(["near", "nearer", "dangling"].iter().all(|name| fs::symlink_metadata(path(name)).unwrap().is_symlink()));
    assert_eq!(names(&path("far")), ["c.csv", "new.csv"]);
    symlink("round", path("round")).unwrap();
    assert!(write_whole(&path("round"), b"new").is_err());
    assert_eq!(names(place.path()), ["dangling", "far", "near", "nearer", "round"]);
}

#[test]
fn the_first_note_stays() {
    let place = tempdir().unwrap();
    let path = place.path().join("note.toml");
    assert!(write_new(&path, b"first").unwrap());
    assert!(!write_new(&path, b"second").unwrap());
    assert_eq!((fs::read(&path).unwrap(), names(place.path())), (b"first".to_vec(), vec!["note.toml".to_string()]));
}

#[test]
fn a_folder_is_no_file() {
    let place = tempdir().unwrap();
    assert!(write_whole(place.path(), b"new").is_err());
    assert!(write_whole(&place.path().join("nowhere/c.csv"), b"new").is_err());
    assert_eq!(names(place.path()), [""; 0]);
}
