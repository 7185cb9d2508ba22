//! A curve's points run each for itself, and joined.

mod common;

use assert_cmd::cargo::cargo_bin;
use cichowiej_command::digest::sha256;
use common::{Folder, HEAD, with, without_studies};
use std::fs;
use std::path::{Path, PathBuf};
use std::process::{Command, Stdio};
use std::thread::sleep;
use std::time::Duration;

const FILES: [&str; 3] = ["c.csv", "c.svg", "c.html"];

/// Status, standard output and the three files of a curve; they are removed.
fn made(folder: &Folder, words: &[&str]) -> (i32, String, Vec<Vec<u8>>) {
    let (status, out, err) = folder.curve(&[&["--csv", "c.csv", "--svg", "c.svg", "--html", "c.html"], words].concat());
    assert!(err.is_empty() || (status == 1 && err.starts_with("cichowiej: --strict: ") && err.lines().count() == 1), "{err}");
    let read = |name: &&str| {
        let bytes = fs::read(folder.path(name)).unwrap();
        fs::remove_file(folder.path(name)).unwrap();
        bytes
    };
    (status, out, FILES.iter().map(read).collect())
}

/// The straight run and the gathered one are the same, also with --strict.
fn gathered_as_straight(folder: &Folder, points: &str) {
    for strict in [&[][..], &["--strict"]] {
        let straight = made(folder, strict);
        let gathered = made(folder, &[&["--gather", "--points", points], strict].concat());
        assert!(straight == gathered, "{}\n{}", straight.1, gathered.1);
    }
}

/// Runs a line by sh, in another folder than the head's.
fn sh(line: &str) {
    let out = Command::new("sh").args(["-c", line]).current_dir("/").output().unwrap();
    let [told, err] = [out.stdout, out.stderr].map(|bytes| String::from_utf8(bytes).unwrap());
    let quiet = without_studies(&err).is_empty() && err.lines().count() == 1;
    assert!(out.status.success() && quiet && told.lines().count() == 1, "{line}: {told} {err}");
}

/// The lines of `--plan parallel`.
fn lines(folder: &Folder, points: &str) -> Vec<String> {
    let (status, out, err) = folder.curve(&["--plan", "parallel", "--points", points]);
    let warned = err.lines().skip(1).all(|line| line.starts_with("warning ("));
    assert!(status == 0 && warned && err.to_lowercase().starts_with("absorbing layer"), "{err}");
    out.lines().map(String::from).collect()
}

/// All points, one after another.
fn run_all(folder: &Folder, points: &str) {
    lines(folder, points).iter().for_each(|line| sh(line));
}

/// The file of a point of the head in the folder.
fn file(folder: &Folder, points: &str, number: usize) -> PathBuf {
    let digest = sha256(&fs::read(folder.path("head.toml")).unwrap());
    folder.path(points).join(format!("{}-{number}.toml", &digest[..16]))
}

fn names(folder: &Path) -> Vec<String> {
    let mut names: Vec<String> =
        fs::read_dir(folder).unwrap().map(|entry| entry.unwrap().file_name().into_string().unwrap()).collect();
    names.sort();
    names
}

#[test]
fn lines_in_any_order_and_more_than_once_give_the_straight_runs_bytes() {
    let folder = Folder::new(HEAD);
    let points = "the mill's points";
    let lines = lines(&folder, points);
    assert_eq!(lines.len(), 3);
    lines.iter().rev().for_each(|line| sh(line));
    let read = |number| fs::read(file(&folder, points, number)).unwrap();
    let before = [0, 1, 2].map(read);
    sh(&lines[1]);
    sh(&lines[0]);
    assert!(before == [0, 1, 2].map(read));
    assert_eq!(names(&folder.path(points)).len(), 3);
    gathered_as_straight(&folder, points);
}

#[test]
fn the_slurm_script_runs_the_point_of_its_task() {
    let folder = Folder::new(HEAD);
    let (status, script, err) = folder.curve(&["--plan", "slurm", "--points", "a b's"]);
    assert_eq!((status, err.as_str()), (0, "absorbing layer: asked for on z, works on z\n"));
    assert!(script.starts_with("#!/bin/sh\n#SBATCH ") && script.contains("\n#SBATCH --array=0-2\n"), "{script}");
    fs::write(folder.path("job.sh"), script).unwrap();
    let job = |task: Option<&str>| {
        let mut command = Command::new("sh");
        command.arg(folder.path("job.sh")).current_dir("/").stdout(Stdio::null()).stderr(Stdio::null());
        command.env_remove("SLURM_ARRAY_TASK_ID").envs(task.map(|task| ("SLURM_ARRAY_TASK_ID", task)));
        command.status().unwrap().success()
    };
    assert!(!job(None) && !job(Some("")) && !job(Some("3")));
    assert!(!folder.path("a b's").exists());
    assert!(["2", "0", "1"].into_iter().all(|task| job(Some(task))));
    gathered_as_straight(&folder, "a b's");
}

/// What a person is told, the layer first: each point's number, name and command.
#[test]
fn the_list_has_number_name_and_command() {
    let folder = Folder::new(HEAD);
    let (status, out, err) = folder.curve(&["--plan", "list", "--points", "p"]);
    assert_eq!((status, err.as_str()), (0, ""));
    let commands = lines(&folder, "p");
    let expected = ["   0  the empty head  ", "   1  moisture 5 %    ", "   2  moisture 10 %   "];
    let expected = expected.iter().zip(&commands).map(|(name, command)| format!("{name}{command}\n"));
    assert_eq!(out, "absorbing layer: asked for on z, works on z\n".to_string() + &expected.collect::<String>());
    assert_eq!(names(&folder.path("")), ["head.toml"]);
}

/// Blanks, quotes and a shell's own marks in the names of program, head and folder.
#[test]
fn names_are_quoted() {
    let outer = Folder::new(HEAD);
    let odd = outer.path("it's \"a\" $HOME `x` * \\ {} & #");
    fs::create_dir(&odd).unwrap();
    fs::copy(outer.path("head.toml"), odd.join("-o 'h.toml")).unwrap();
    fs::copy(cargo_bin("cichowiej"), odd.join("the program")).unwrap();
    let run = |words: &[&str]| {
        let mut command = Command::new(odd.join("the program"));
        command.current_dir(&odd).args(["curve", "./-o 'h.toml"]).args(words);
        String::from_utf8(command.output().unwrap().stdout).unwrap()
    };
    let lines = run(&["--plan", "parallel", "--points", "p 'q"]);
    assert_eq!(lines.lines().count(), 3);
    lines.lines().for_each(sh);
    assert_eq!(names(&odd.join("p 'q")).len(), 3);
    assert_eq!(run(&["--gather", "--points", "p 'q"]), run(&[]));
    let (status, out, err) = outer.curve(&["--plan", "parallel", "--points", "a\nb"]);
    assert!(status == 1 && out.is_empty() && err.contains("line break"), "{err}");
}

#[test]
fn warnings_a_missing_layer_and_nan_are_the_straight_runs() {
    let changes = [
        ("thickness = 10", "thickness = 45", "ABSORBING LAYER MISSING ON z"),
        ("steps = 3000", "steps = 300", "warning (steps): steps too few"),
        ("courant = 0.5", "courant = 1.9", "NaN"),
        ("title = \"A test\"\n", "", "absorbing layer"),
        ("reflected = 15\n", "", "absorbing layer"),
    ];
    for (old, new, word) in changes {
        let folder = with(old, new);
        run_all(&folder, "p");
        let (_, out, _) = folder.curve(&["--gather", "--points", "p"]);
        assert!(out.contains(word), "{word}: {out}");
        gathered_as_straight(&folder, "p");
    }
}

#[test]
fn missing_points_are_named_with_their_commands() {
    let folder = Folder::new(HEAD);
    run_all(&folder, "p");
    fs::remove_file(file(&folder, "p", 0)).unwrap();
    fs::remove_file(file(&folder, "p", 2)).unwrap();
    let (status, out, err) = folder.curve(&["--gather", "--points", "p", "--csv", "c.csv"]);
    assert_eq!((status, out.as_str()), (1, ""));
    assert!(err.contains("p: 2 of 3 points are missing") && !folder.path("c.csv").exists(), "{err}");
    assert!(err.contains("\npoint 0, the empty head: ") && err.contains("\npoint 2, moisture 10 %: "), "{err}");
    assert!(err.matches(": not there").count() == 2 && !err.contains("point 1"), "{err}");
    let commands: Vec<&str> = err.lines().filter_map(|line| line.strip_prefix("  ")).collect();
    assert_eq!(commands.len(), 2);
    commands.into_iter().for_each(sh);
    gathered_as_straight(&folder, "p");
    let (status, _, err) = folder.curve(&["--gather", "--points", "nowhere"]);
    assert!(status == 1 && err.contains("3 of 3 points are missing") && !folder.path("nowhere").exists(), "{err}");
}

/// The text with another word in it, and its last line right again.
fn forged(text: &str, old: &str, new: &str) -> String {
    let changed = text.replacen(old, new, 1);
    assert!(changed != text, "{old}");
    let body = &changed[..changed.rfind("sha256 = ").unwrap()];
    format!("{body}sha256 = \"{}\"\n", sha256(body.as_bytes()))
}

#[test]
fn files_that_are_not_the_points_are_named() {
    let folder = Folder::new(HEAD);
    run_all(&folder, "p");
    let path = file(&folder, "p", 1);
    let good = fs::read_to_string(&path).unwrap();
    let digit = good.find("energy = \"").unwrap() + 12;
    let mut changed = good.clone().into_bytes();
    changed[digit] = if changed[digit] == b'0' { b'1' } else { b'0' };
    let cases = [
        (changed, "damaged"),
        (good.as_bytes()[..good.len() / 2].to_vec(), "damaged"),
        (Vec::new(), "damaged"),
        (vec![0xff; 100], "damaged"),
        (forged(&good, "reflected = ", "other = ").into(), "damaged"),
        (forged(&good, "transmitted = [", "transmitted = [[\"0000000000000000\", \"0000000000000000\"], ").into(), "damaged"),
        (forged(&good, "library ", "library 0").into(), "of another engine, cichowiej "),
        (forged(&good, "input = \"", "input = \"0").into(), "of another head, "),
        (fs::read(file(&folder, "p", 2)).unwrap(), "of another point, 2"),
    ];
    for (bytes, word) in cases {
        fs::write(&path, bytes).unwrap();
        let (status, out, err) = folder.curve(&["--gather", "--points", "p", "--csv", "c.csv"]);
        assert!(status == 1 && out.is_empty() && !folder.path("c.csv").exists(), "{word}: {err}");
        assert!(err.contains("1 of 3 points") && err.contains("point 1, moisture 5 %: p/"), "{err}");
        assert!(err.contains(&format!("-1.toml: {word}")), "{word}: {err}");
    }
    fs::write(&path, good).unwrap();
    gathered_as_straight(&folder, "p");
}

/// One folder for several heads; and a head that was changed has no points yet.
#[test]
fn heads_share_a_folder() {
    let folder = Folder::new(HEAD);
    run_all(&folder, "p");
    fs::write(folder.path("head.toml"), HEAD.replace("percent = 5", "percent = 6")).unwrap();
    let (status, _, err) = folder.curve(&["--gather", "--points", "p"]);
    assert!(status == 1 && err.contains("3 of 3 points") && err.contains("point 1, moisture 6 %"), "{err}");
    run_all(&folder, "p");
    assert_eq!(names(&folder.path("p")).len(), 6);
    gathered_as_straight(&folder, "p");
    fs::write(folder.path("head.toml"), HEAD).unwrap();
    gathered_as_straight(&folder, "p");
}

/// A head with other constants has no points yet, and takes none of the others', whatever their names.
#[test]
fn points_of_other_constants_are_not_joined() {
    let folder = Folder::new(HEAD);
    run_all(&folder, "p");
    let old: Vec<PathBuf> = (0..3).map(|number| file(&folder, "p", number)).collect();
    fs::write(folder.path("head.toml"), HEAD.replace("courant = 0.5", "courant = 0.5\nconstants = \"2019\"")).unwrap();
    run_all(&folder, "p");
    gathered_as_straight(&folder, "p");
    fs::copy(&old[1], file(&folder, "p", 1)).unwrap();
    let (status, out, err) = folder.curve(&["--gather", "--points", "p"]);
    assert!(status == 1 && out.is_empty() && err.contains("1 of 3 points") && err.contains("of another head"), "{err}");
}

#[test]
fn one_point_at_the_same_time_on_many_machines() {
    let folder = Folder::new(HEAD);
    let spawn = |number: usize| {
        let mut command = folder.command();
        command.args(["--point", &(number % 3).to_string(), "--points", "deep/er/p"]).stdout(Stdio::null()).spawn().unwrap()
    };
    let children: Vec<_> = (0..9).map(spawn).collect();
    assert!(children.into_iter().all(|mut child| child.wait().unwrap().success()));
    assert_eq!(names(&folder.path("deep/er/p")).len(), 3);
    gathered_as_straight(&folder, "deep/er/p");
}

#[test]
fn ctrl_c_leaves_no_point() {
    let folder = with("steps = 3000", "steps = 400000000");
    let mut child =
        folder.command().args(["--point", "1", "--points", "p"]).stdout(Stdio::null()).stderr(Stdio::null()).spawn().unwrap();
    sleep(Duration::from_millis(300));
    assert!(Command::new("kill").args(["-INT", &child.id().to_string()]).status().unwrap().success());
    assert_eq!(child.wait().unwrap().code(), Some(130));
    assert_eq!(names(&folder.path("p")), [""; 0]);
}

#[test]
fn folders_and_points_that_cannot_be_had_are_named() {
    let folder = Folder::new(HEAD);
    let (status, out, err) = folder.curve(&["--point", "3", "--points", "p"]);
    assert_eq!((status, out.as_str()), (1, ""));
    assert!(err.contains("head.toml: there is no point 3: it has 0 to 2"), "{err}");
    let (status, _, err) = folder.curve(&["--point", "0", "--points", "head.toml"]);
    assert!(status == 1 && err.contains("head.toml: "), "{err}");
    run_all(&folder, "p");
    let taken = file(&folder, "p", 0);
    let (status, _, err) = folder.curve(&["--gather", "--points", "p", "--csv", taken.to_str().unwrap()]);
    assert!(status == 1 && err.contains("named twice"), "{err}");
    let refused = with("pitch = \"1 mm\"", "pitch = 0");
    for words in [["--plan", "slurm"], ["--point", "0"], ["--strict", "--gather"]] {
        let (status, out, err) = refused.curve(&[&words[..], &["--points", "p"]].concat());
        assert_eq!((status, out.as_str()), (1, ""));
        assert!(err.contains("head.toml:4: grid: refused as 2 BadSpacing"), "{err}");
    }
}

#[test]
fn misuse_ends_with_2() {
    let folder = Folder::new(HEAD);
    let misuses = [
        "--points p",
        "--plan list --gather --points p",
        "--plan list --point 0 --points p",
        "--point 0 --gather --points p",
        "--plan parallel --jobs 2 --points p",
        "--plan make --points p",
        "--point x --points p",
        "--point 0 --points p --csv c.csv",
        "--plan slurm --points p --html c.html",
    ];
    for words in misuses {
        let (status, out, _) = folder.curve(&words.split(' ').collect::<Vec<_>>());
        assert_eq!((status, out.as_str()), (2, ""), "{words}");
    }
    assert_eq!(names(&folder.path("")), ["head.toml"]);
}

/// Without a folder's name it is beside the head.
#[test]
fn the_usual_folder_is_beside_the_head() {
    let folder = Folder::new(HEAD);
    let (status, plan, _) = folder.curve(&["--plan", "parallel"]);
    assert!(status == 0 && plan.lines().all(|line| line.ends_with("/head.points")), "{plan}");
    plan.lines().for_each(sh);
    assert_eq!(names(&folder.path("head.points")).len(), 3);
    let straight = folder.curve(&[]);
    assert_eq!(folder.curve(&["--gather"]), straight);
}

/// What a processor without fused multiplication would have the system's library choose.
const OTHER_KIND: (&str, &str) = ("GLIBC_TUNABLES", "glibc.cpu.hwcaps=-FMA,-AVX2");

/// The files of a curve and its points as a machine computes them.
fn computed(folder: &Folder, machine: Option<(&str, &str)>) -> Vec<Vec<u8>> {
    let run = |words: &[&str]| {
        let out = folder.command().args(words).envs(machine).output().unwrap();
        let told = without_studies(&String::from_utf8(out.stderr).unwrap());
        assert!(out.status.success() && told.is_empty(), "{words:?}: {told}");
        out.stdout
    };
    let table = run(&["--csv", "c.csv", "--svg", "c.svg", "--html", "c.html"]);
    let read = |path: PathBuf| {
        let bytes = fs::read(&path).unwrap();
        fs::remove_file(path).unwrap();
        bytes
    };
    let files = FILES.map(|name| read(folder.path(name)));
    let points = ["0", "1", "2"].map(|number| {
        run(&["--point", number, "--points", "points"]);
        read(file(folder, "points", number.parse().unwrap()))
    });
    [table].into_iter().chain(files).chain(points).collect()
}

/// Whichever functions the system's library would choose, no byte depends on them; with each source, the example's and a weak layer among the heads.
#[test]
fn machines_of_two_kinds_compute_the_same_bytes() {
    let modulated = "[source.modulated]\nfrequency = \"10 GHz\"\nwidth = \"80 ps\"\ndelay = \"400 ps\"";
    let example = fs::read_to_string(concat!(env!("CARGO_MANIFEST_DIR"), "/../../examples/board-coarse.toml")).unwrap();
    let folders = [
        Folder::new(HEAD),
        Folder::new(&example),
        with(modulated, "[source.gaussian]\nwidth = \"40 ps\"\ndelay = \"200 ps\""),
        with(modulated, "[source.continuous]\nfrequency = \"9 GHz\"\nramp = \"300 ps\""),
        with("thickness = 10", "thickness = 12\norder = 3.3\nalpha_order = 1.7\nkappa_max = 7.1\nsigma_scale = 0.9"),
    ];
    for folder in folders {
        let (here, elsewhere) = (computed(&folder, None), computed(&folder, Some(OTHER_KIND)));
        let same: Vec<bool> = here.iter().zip(&elsewhere).map(|(here, elsewhere)| here == elsewhere).collect();
        assert_eq!(same, [true; 7]);
    }
}
