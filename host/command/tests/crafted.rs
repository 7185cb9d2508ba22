//! Heads, notes and points that someone has made to do harm: too deep, too long, no files, with words for the terminal.

mod common;
#[path = "standing/place.rs"]
#[allow(dead_code)]
mod place;

use assert_cmd::cargo::cargo_bin;
use cichowiej_command::digest::sha256;
use common::{Folder, HEAD, with};
use place::Place;
use std::fs;
use std::path::{Path, PathBuf};
use std::process::{Command, Stdio};
use std::thread::sleep;
use std::time::{Duration, Instant};

const MANY: usize = 200_000;

/// Texts that are deep in brackets, braces and dotted keys, in values and in headers; each whole, and cut off. None is too long for a point.
fn deep() -> Vec<String> {
    let nested = |open: &str, close: &str| format!("x = {}1{}\n", open.repeat(MANY), close.repeat(MANY));
    let dotted = vec!["a"; MANY].join(".");
    let quoted = vec!["\"a\""; MANY].join(".");
    let whole = [
        nested("[", "]"),
        nested("{a=", "}"),
        nested("[{a=", ""),
        format!("{dotted} = 1\n"),
        format!("{quoted} = 1\n"),
        format!("x = {{ {dotted} = 1 }}\n"),
        format!("[{dotted}]\nx = 1\n"),
        format!("[[{dotted}]]\nx = 1\n"),
        format!("{}{}\n", "[".repeat(MANY), "]".repeat(MANY)),
        // what only the search for a line could take for brackets
        format!("\"\\\" = {}\n", "[".repeat(MANY)),
        format!("\"{}\" = 1\n", ".".repeat(MANY)),
    ];
    let cut = |text: &String| text[..text.len() / 2].to_string();
    whole.iter().cloned().chain(whole.iter().map(cut)).collect()
}

/// A command that is given up after a while: its status, what it prints, and that no signal ended it. With memory for what a good file takes.
fn ended(program: &str, folder: &Path, words: &[&str]) -> (i32, String, String) {
    let limited = "ulimit -v 2000000; exec timeout 60 \"$@\"";
    let mut command = Command::new("sh");
    command.args(["-c", limited, "sh", program]).args(words).current_dir(folder).env_remove("CICHOWIEJ_FOLDER");
    let out = command.stdin(Stdio::null()).output().unwrap();
    let text = |bytes: Vec<u8>| String::from_utf8(bytes).unwrap();
    let (told, error) = (text(out.stdout), text(out.stderr));
    let shown: String = error.chars().take(300).collect();
    (out.status.code().unwrap_or_else(|| panic!("{words:?}: {shown}")), told, error)
}

fn run(folder: &Path, words: &[&str]) -> (i32, String, String) {
    ended(cargo_bin("cichowiej").to_str().unwrap(), folder, words)
}

#[test]
fn no_head_is_too_deep() {
    for text in deep() {
        for head in [text.clone(), format!("{HEAD}{text}")] {
            let folder = Folder::new(&head);
            let (status, out, err) = run(&folder.path(""), &["curve", "head.toml"]);
            let begin = &text[..40.min(text.len())];
            assert!(status == 1 && out.is_empty() && err.starts_with("cichowiej: head.toml"), "{begin}: {status} {err:.300}");
        }
    }
}

#[test]
fn brackets_in_comments_and_strings_are_not_deep() {
    let strings = "a = '['\n".repeat(3) + "b = \"[\\\"[\"\nc = \"\"\"[\"[\"\"\"\nd = '''['['''\n";
    let comments = "# cells [0, 4)\n".repeat(100);
    let folder = Folder::new(&format!(
        "{comments}{}",
        HEAD.replace("\"A test\"", &format!("'''\n{}'''", strings.replace("'''", "\"\"\"")))
    ));
    let (status, _, err) = folder.curve(&[]);
    assert_eq!((status, err.as_str()), (0, ""));
}

#[test]
fn no_note_is_too_deep() {
    let place = Place::new();
    let id = place.keep(20, 4, &[]);
    let path = place.kept(&id, ".toml");
    let good = fs::read_to_string(&path).unwrap();
    for text in deep() {
        fs::write(&path, format!("{good}{text}")).unwrap();
        let (status, out, err) = run(&place.path(""), &["verify"]);
        assert!(status == 1 && out.contains("1 damaged"), "{status} {out:.300} {err:.300}");
        let (status, out, _) = run(&place.path(""), &["list"]);
        assert!(status == 0 && out.contains("(note damaged: "), "{out:.300}");
    }
}

/// A head's points, and the file of point 1.
fn points() -> (Folder, PathBuf) {
    let folder = Folder::new(HEAD);
    for number in ["0", "1", "2"] {
        assert_eq!(folder.curve(&["--point", number, "--points", "p"]).0, 0);
    }
    let digest = sha256(HEAD.as_bytes());
    let path = folder.path("p").join(format!("{}-1.toml", &digest[..16]));
    (folder, path)
}

/// With the last line that a whole point has.
fn sealed(body: &str) -> String {
    format!("{body}sha256 = \"{}\"\n", sha256(body.as_bytes()))
}

/// What `--gather` says of point 1.
fn gathered(folder: &Folder) -> String {
    let (status, out, err) = run(&folder.path(""), &["curve", "head.toml", "--gather", "--points", "p"]);
    assert!(status == 1 && out.is_empty() && err.contains("1 of 3 points are missing"), "{status} {err:.300}");
    err
}

#[test]
fn no_point_is_too_deep() {
    let (folder, path) = points();
    let good = fs::read_to_string(&path).unwrap();
    let body = &good[..good.rfind("sha256 = ").unwrap()];
    for text in deep() {
        for whole in [sealed(&format!("{body}{text}")), sealed(&text)] {
            fs::write(&path, whole).unwrap();
            assert!(gathered(&folder).contains("-1.toml: damaged; "));
        }
    }
    fs::write(&path, good).unwrap();
    assert_eq!(folder.curve(&["--gather", "--points", "p"]).0, 0);
}

/// No control character and no line of its own.
fn tame(err: &str, lines: usize) {
    assert!(err.lines().count() == lines && !err.contains(|c: char| c.is_control() && c != '\n'), "{err:?}");
}

#[test]
fn no_file_speaks_to_the_terminal() {
    let harm = "\\u001b[2J\\nforged: \\u009b1m\\r";
    let heads = [
        ("title = \"A test\"", format!("title = \"A test\"\n\"{harm}\" = 1")),
        ("pitch = \"1 mm\"", format!("pitch = \"1 {harm}\"")),
        ("axes = [\"z\"]", format!("axes = [\"{harm}\"]")),
        ("[planes]", format!("[[boxes]]\nmaterial = \"{harm}\"\ncells = {{}}\n[planes]")),
        ("[planes]", format!("[materials.\"{harm}\"]\neps_inf = 0\n[planes]")),
        ("[planes]", format!("\"{harm}\" = 1\n\"{harm}\" = 1\n[planes]")),
        ("[planes]", format!("[\"{harm}\"]\n[\"{harm}\"]\n[planes]")),
        ("steps = 3000", "steps = \u{1b}[2J".to_string()),
        ("[wave.injector]", format!("[wave.\"{harm}\"]")),
    ];
    for (old, new) in heads {
        let (status, out, err) = with(old, &new).curve(&[]);
        assert!(status == 1 && out.is_empty(), "{new}");
        tame(&err, 1);
    }
    let (folder, path) = points();
    let good = fs::read_to_string(&path).unwrap();
    let body = &good[..good.rfind("sha256 = ").unwrap()];
    for (old, words) in
        [("engine = \"", "of another engine, \\u{1b}[2J"), ("input = \"", "of another head, whose SHA-256 is \\u{1b}[2J")]
    {
        fs::write(&path, sealed(&body.replace(old, &format!("{old}{harm}")))).unwrap();
        let err = gathered(&folder);
        assert!(err.contains(words), "{err:?}");
        tame(&err, 3);
    }
    fs::write(folder.path("s.txt"), "size 1 1 2\u{1b}[2J\r\u{9b}1m\n").unwrap();
    let (status, _, err) = run(&folder.path(""), &["run", "s.txt"]);
    assert_eq!(status, 1);
    tame(&err, 1);
}

#[test]
fn what_is_too_long_is_told_in_a_moment() {
    let folder = Folder::new(HEAD);
    for word in ["curve", "run"] {
        let begun = Instant::now();
        let (status, out, err) = run(&folder.path(""), &[word, "/dev/zero"]);
        assert!((status, out.as_str()) == (1, "") && begun.elapsed() < Duration::from_secs(10));
        assert!(err.contains("/dev/zero: longer than a head or a script may be"), "{err:.300}");
    }
    // a head from a pipe is read
    let piped = format!("cat head.toml | {} curve /dev/stdin", cargo_bin("cichowiej").display());
    assert!(Command::new("sh").args(["-c", &piped]).current_dir(folder.path("")).output().unwrap().status.success());
    let (folder, path) = points();
    let good = fs::read_to_string(&path).unwrap();
    let body = &good[..good.rfind("sha256 = ").unwrap()];
    fs::write(&path, sealed(&format!("{body}{}", "# long\n".repeat(1 << 18)))).unwrap();
    assert!(gathered(&folder).contains("-1.toml: cannot be read: longer than a point may be"));
    let place = Place::new();
    let id = place.keep(20, 4, &[]);
    let note = fs::read_to_string(place.kept(&id, ".toml")).unwrap();
    fs::write(place.kept(&id, ".toml"), format!("{note}{}", "# long\n".repeat(1 << 18))).unwrap();
    let (status, out, _) = run(&place.path(""), &["verify"]);
    assert!(status == 1 && out.contains("longer than a note may be"), "{out}");
}

/// A point that is a pipe, or a folder, or a link to what never ends.
#[test]
fn a_point_that_is_no_file_is_not_waited_for() {
    let (folder, path) = points();
    let tried = |words: &str| {
        let mut child = folder.command().args(["--gather", "--points", "p"]).stderr(Stdio::piped()).spawn().unwrap();
        let ended = (0..200).any(|_| {
            sleep(Duration::from_millis(50));
            child.try_wait().unwrap().is_some()
        });
        if !ended {
            child.kill().unwrap();
        }
        let err = String::from_utf8(child.wait_with_output().unwrap().stderr).unwrap();
        assert!(ended && err.contains(words), "{err}");
    };
    fs::remove_file(&path).unwrap();
    assert!(Command::new("mkfifo").arg(&path).status().unwrap().success());
    tried("-1.toml: cannot be read: this is no file");
    fs::remove_file(&path).unwrap();
    std::os::unix::fs::symlink("/dev/zero", &path).unwrap();
    tried("-1.toml: cannot be read: this is no file");
    fs::remove_file(&path).unwrap();
    fs::create_dir(&path).unwrap();
    tried("-1.toml: cannot be read: this is no file");
    fs::remove_dir(&path).unwrap();
    tried("-1.toml: not there");
}
