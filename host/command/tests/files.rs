//! Files and pipes that are not as they should be, and interrupted runs.

mod common;

use assert_cmd::cargo::cargo_bin;
use common::{Folder, HEAD, with, without_studies};
use std::fs;
use std::os::unix::fs::{PermissionsExt, symlink};
use std::process::{Command, Stdio};
use std::thread::sleep;
use std::time::Duration;

#[test]
fn files_that_cannot_be_read_or_written_are_named() {
    let folder = Folder::new(HEAD);
    fs::remove_file(folder.path("head.toml")).unwrap();
    let (status, _, err) = folder.curve(&[]);
    assert!(status == 1 && err.contains("head.toml: ") && err.contains("No such file"), "{err}");
    fs::create_dir(folder.path("head.toml")).unwrap();
    assert_eq!(folder.curve(&[]).0, 1);
    let folder = Folder::new(HEAD);
    let (status, _, err) = folder.curve(&["--csv", "nowhere/c.csv"]);
    assert!(status == 1 && err.contains("nowhere/c.csv: there is no folder nowhere"), "{err}");
    let (status, _, err) = folder.curve(&["--csv", "/dev/full"]);
    assert!(status == 1 && err.contains("/dev/full: ") && err.contains("No space"), "{err}");
    fs::write(folder.path("head.toml"), b"title = \"\xff\"").unwrap();
    let (status, _, err) = folder.curve(&[]);
    assert!(status == 1 && err.contains("not UTF-8"), "{err}");
}

/// The names in a folder.
fn names(folder: &Folder) -> Vec<String> {
    let entries = fs::read_dir(folder.path("")).unwrap();
    let mut names: Vec<String> = entries.map(|entry| entry.unwrap().file_name().into_string().unwrap()).collect();
    names.sort();
    names
}

#[test]
fn no_output_takes_the_inputs_place_or_anothers() {
    let folder = Folder::new(HEAD);
    for words in [
        ["--csv", "head.toml", "--svg", "c.svg"],
        ["--csv", "c", "--html", "./c"],
        ["--csv", "new", "--svg", "new"],
        ["--csv", "new", "--html", "./new"],
    ] {
        fs::write(folder.path("c"), "old").unwrap();
        let (status, _, err) = folder.curve(&words);
        assert!(status == 1 && err.contains("named twice"), "{words:?}: {err}");
    }
    assert_eq!(fs::read_to_string(folder.path("head.toml")).unwrap(), HEAD);
}

/// On a disk of 16 kB the page has no room: it is told, and what was there before stays.
#[test]
fn a_full_disk_leaves_the_old_file() {
    let folder = Folder::new(HEAD);
    let disk = folder.path("disk");
    fs::create_dir(&disk).unwrap();
    let script = "mount -t tmpfs -o size=16k none disk || exit 77; echo old > disk/c.html; \
                  \"$0\" curve head.toml --html disk/c.html; echo status $?; ls disk; cat disk/c.html";
    let mut command = Command::new("unshare");
    command.args(["--mount", "--map-root-user", "sh", "-c", script]).arg(cargo_bin("cichowiej")).current_dir(folder.path(""));
    let Ok(out) = command.output() else { return not_tried() };
    if out.status.code() == Some(77) || !out.status.success() {
        return not_tried();
    }
    let (out, err) = (String::from_utf8(out.stdout).unwrap(), String::from_utf8(out.stderr).unwrap());
    assert!(err.contains("disk/c.html: ") && err.contains("No space left"), "{err}");
    assert!(out.ends_with("status 1\nc.html\nold\n"), "{out}");
}

fn not_tried() {
    println!("NOT TRIED: no disk can be mounted here");
}

#[test]
fn a_pipe_that_nobody_reads_is_no_fault() {
    let folder = Folder::new(HEAD);
    let mut child = folder.command().args(["--csv", "c.csv"]).stdout(Stdio::piped()).spawn().unwrap();
    drop(child.stdout.take());
    assert_eq!(child.wait().unwrap().code(), Some(0));
    assert!(fs::read_to_string(folder.path("c.csv")).unwrap().lines().count() > 3);
    let out = folder.command().stdout(fs::File::options().write(true).open("/dev/full").unwrap()).output().unwrap();
    assert_eq!(out.status.code(), Some(1));
    assert!(String::from_utf8(out.stderr).unwrap().contains("standard output: No space left"));
}

/// A run of hours, which is not waited for.
fn long() -> Folder {
    with("steps = 3000", "steps = 400000000")
}

fn signalled(folder: &Folder, signal: &str) -> std::process::ExitStatus {
    let mut child = folder.command().args(["--csv", "c.csv", "--html", "c.html"]).stderr(Stdio::null()).spawn().unwrap();
    sleep(Duration::from_millis(300));
    assert!(Command::new("kill").args([signal, &child.id().to_string()]).status().unwrap().success());
    child.wait().unwrap()
}

#[test]
fn ctrl_c_leaves_no_file() {
    let folder = long();
    assert_eq!(signalled(&folder, "-INT").code(), Some(130));
    assert_eq!(names(&folder), ["head.toml"]);
}

#[test]
fn a_kill_leaves_no_file() {
    let folder = long();
    assert_eq!(signalled(&folder, "-KILL").code(), None);
    assert_eq!(names(&folder), ["head.toml"]);
}

/// `curve head.toml` behind some lines of a shell's, with more words.
fn by_shell(folder: &Folder, before: &str, words: &str) -> (i32, String, String) {
    let script = format!("{before} \"$0\" curve head.toml {words}");
    let mut command = Command::new("sh");
    let out = command.args(["-c", &script]).arg(cargo_bin("cichowiej")).current_dir(folder.path("")).output().unwrap();
    let text = |bytes: Vec<u8>| String::from_utf8(bytes).unwrap();
    (out.status.code().unwrap(), text(out.stdout), without_studies(&text(out.stderr)))
}

/// What is written has the mode that the umask leaves it, and is there alone; over an old file it has the old one's.
#[test]
fn the_umask_is_heard() {
    let folder = Folder::new(HEAD);
    let mode = || fs::metadata(folder.path("c.csv")).unwrap().permissions().mode() & 0o7777;
    for (mask, bits) in [("022", 0o644), ("027", 0o640), ("077", 0o600)] {
        assert_eq!(by_shell(&folder, &format!("umask {mask};"), "--csv c.csv").0, 0);
        assert_eq!(mode(), bits, "{mask}");
        assert_eq!(names(&folder), ["c.csv", "head.toml"]);
        assert_eq!(by_shell(&folder, "chmod 664 c.csv; umask 077;", "--csv c.csv").0, 0);
        assert_eq!(mode(), 0o664);
        fs::remove_file(folder.path("c.csv")).unwrap();
    }
}

/// The control room reads the file that the link leads to.
#[test]
fn an_output_that_is_a_link_is_followed() {
    let folder = Folder::new(HEAD);
    fs::create_dir(folder.path("room")).unwrap();
    fs::write(folder.path("room/now.csv"), "old").unwrap();
    symlink("room/now.csv", folder.path("c.csv")).unwrap();
    assert_eq!(folder.curve(&["--csv", "c.csv"]).0, 0);
    assert!(fs::symlink_metadata(folder.path("c.csv")).unwrap().is_symlink());
    assert!(fs::read_to_string(folder.path("room/now.csv")).unwrap().starts_with("# absorbing layer"));
    // an input by another name is an input
    symlink("head.toml", folder.path("other")).unwrap();
    let (status, _, err) = folder.curve(&["--csv", "other"]);
    assert!(status == 1 && err.contains("named twice"), "{err}");
}

/// Below /dev a file is a file, and what is no file is written to as it stands.
#[test]
fn a_file_below_dev_is_whole() {
    let folder = Folder::new(HEAD);
    assert_eq!(folder.curve(&["--csv", "c.csv"]).0, 0);
    let wanted = fs::read_to_string(folder.path("c.csv")).unwrap();
    if let Ok(place) = tempfile::tempdir_in("/dev/shm") {
        let file = place.path().join("c.csv");
        for old in ["short".to_string(), "a longer text than a curve has\n".repeat(1000)] {
            fs::write(&file, old).unwrap();
            assert_eq!(folder.curve(&["--csv", file.to_str().unwrap()]).0, 0);
            assert_eq!(fs::read_to_string(&file).unwrap(), wanted);
        }
        fs::remove_file(&file).unwrap();
        assert_eq!(folder.curve(&["--csv", file.to_str().unwrap()]).0, 0);
        assert_eq!(fs::read_to_string(&file).unwrap(), wanted);
    } else {
        println!("NOT TRIED: no /dev/shm here");
    }
    let (_, table, _) = folder.curve(&[]);
    // a pipe, and a file that is open already as standard output
    assert_eq!(by_shell(&folder, "", "--csv /dev/stdout | cat").1, format!("{table}{wanted}"));
    assert_eq!(by_shell(&folder, "", "--csv /dev/stdout > out.txt; cat out.txt").1, format!("{table}{wanted}"));
    assert_eq!(by_shell(&folder, "exec 3> out.txt;", "--csv /dev/fd/3 > /dev/null; cat out.txt").1, wanted);
    assert_eq!(folder.curve(&["--csv", "/dev/null", "--svg", "/dev/null"]).0, 0);
}

/// A file that its owner has shut stays as it is. (Root is let in by the system.)
#[test]
fn a_shut_file_stays() {
    let folder = Folder::new(HEAD);
    fs::write(folder.path("c.csv"), "old").unwrap();
    fs::set_permissions(folder.path("c.csv"), fs::Permissions::from_mode(0o444)).unwrap();
    if fs::File::options().write(true).open(folder.path("c.csv")).is_ok() {
        println!("NOT TRIED: the system lets this user write to any file");
        return;
    }
    let (status, _, err) = folder.curve(&["--csv", "c.csv"]);
    assert!(status == 1 && err.contains("c.csv: Permission denied"), "{err}");
    assert_eq!(fs::read_to_string(folder.path("c.csv")).unwrap(), "old");
}

#[test]
fn misuse_ends_with_2() {
    let run = |words: &[&str]| Command::new(cargo_bin("cichowiej")).args(words).output().unwrap().status.code();
    assert_eq!(run(&["curve"]), Some(2));
    assert_eq!(run(&["curve", "head.toml", "--jobs", "0"]), Some(2));
    assert_eq!(run(&["curve", "head.toml", "--jbos", "1"]), Some(2));
    assert_eq!(run(&["--help"]), Some(0));
}
