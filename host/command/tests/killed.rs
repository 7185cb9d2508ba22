//! A kill at any moment leaves the folder whole.

use assert_cmd::cargo::cargo_bin;
use cichowiej::{Constants, Grid, Study};
use std::collections::BTreeMap;
use std::fs;
use std::os::unix::process::ExitStatusExt;
use std::path::{Path, PathBuf};
use std::process::{Command, Stdio};
use std::thread::sleep;
use std::time::{Duration, Instant, SystemTime, UNIX_EPOCH};
use tempfile::tempdir;

const KILLS: usize = 64;
/// Saves in a folder before the next one is begun, so that going through it takes no longer.
const FULL: usize = 2;

/// Numbers from a seed (xorshift).
struct Random(u64);

impl Random {
    fn below(&mut self, end: u64) -> u64 {
        self.0 ^= self.0 << 13;
        self.0 ^= self.0 >> 7;
        self.0 ^= self.0 << 17;
        self.0 % end
    }
}

fn command(folder: &Path, words: &[&str]) -> Command {
    let mut command = Command::new(cargo_bin("cichowiej"));
    command.args(words).arg("--folder").arg(folder).stdout(Stdio::null());
    command
}

/// The files of a folder by name, leftovers apart.
fn files(folder: &Path) -> BTreeMap<String, Vec<u8>> {
    let Ok(entries) = fs::read_dir(folder) else { return BTreeMap::new() };
    let named = entries.map(|entry| entry.unwrap()).map(|entry| (entry.file_name().into_string().unwrap(), entry.path()));
    named.filter(|(name, _)| !name.starts_with(".tmp")).map(|(name, path)| (name, fs::read(path).unwrap())).collect()
}

/// A save, another one each time.
struct Saves {
    study: Study,
    path: PathBuf,
}

impl Saves {
    fn new(path: PathBuf, cells: [usize; 3]) -> Self {
        let (pitch, constants) = ([1e-3; 3], Constants::Old);
        let grid = Grid { cells, pitch, dt: 0.5 * constants.largest_dt(pitch), pole_slots: 1, constants };
        let mut study = Study::open(&grid).unwrap();
        study.injector_z(3).unwrap();
        Self { study, path }
    }

    fn next(&mut self) -> Vec<u8> {
        self.study.step(1.0).unwrap();
        let bytes = self.study.save().unwrap();
        fs::write(&self.path, &bytes).unwrap();
        bytes
    }
}

/// What a folder may have more than before: nothing, the save, or the save and its note, each whole.
fn check(before: &BTreeMap<String, Vec<u8>>, folder: &Path, save: &[u8], told: &str) -> usize {
    let mut after = files(folder);
    for (name, bytes) in before {
        assert!(after.remove(name).as_ref() == Some(bytes), "{told}: {name} is lost or another one");
    }
    let new: Vec<&String> = after.keys().collect();
    let (saves, notes): (Vec<&String>, Vec<&String>) = new.iter().partition(|name| name.ends_with(".save"));
    assert!(saves.len() <= 1 && notes.len() <= saves.len(), "{told}: {new:?}");
    assert!(saves.iter().all(|name| after[*name] == save), "{told}: {new:?} is not what was kept");
    let verified = command(folder, &["verify"]).stdout(Stdio::piped()).output().unwrap();
    let text = String::from_utf8(verified.stdout).unwrap();
    // a kill that came before the folder was made leaves none
    assert!(!folder.exists() || (verified.status.success() && text.ends_with(", 0 damaged\n")), "{told}: {text}");
    new.len()
}

/// Files that killed programs have left.
fn leftovers(folder: &Path) -> usize {
    let Ok(entries) = fs::read_dir(folder) else { return 0 };
    entries.filter(|entry| entry.as_ref().unwrap().file_name().to_str().unwrap().starts_with(".tmp")).count()
}

/// The system ends a program at the byte that goes past its limit on a file's length, by a signal: at each 512th byte of the save.
#[test]
fn a_kill_at_a_byte_of_the_save_leaves_the_folder_whole() {
    let place = tempdir().unwrap();
    let folder = place.path().join("standing");
    let mut saves = Saves::new(place.path().join("s.save"), [2, 2, 9]);
    let keep = || command(&folder, &["keep", place.path().join("s.save").to_str().unwrap()]);
    saves.next();
    assert!(keep().status().unwrap().success());
    let before = files(&folder);
    let save = saves.next();
    let blocks = save.len().div_ceil(512);
    for block in 0..blocks {
        let limited = format!("ulimit -c 0; ulimit -f {block}; exec \"$@\"");
        let child = keep();
        let status =
            Command::new("sh").args(["-c", &limited, "sh"]).arg(child.get_program()).args(child.get_args()).status().unwrap();
        let told = format!("killed at byte {}", 512 * block);
        assert_eq!(status.signal(), Some(25), "{told}: {status}");
        assert_eq!(check(&before, &folder, &save, &told), 0, "{told}");
        assert_eq!(leftovers(&folder), block + 1, "{told}");
    }
    assert!(keep().status().unwrap().success());
    assert_eq!(check(&before, &folder, &save, "whole"), 2);
}

#[test]
fn a_kill_at_any_moment_leaves_the_folder_whole() {
    let seed = SystemTime::now().duration_since(UNIX_EPOCH).unwrap().as_nanos() as u64 | 1;
    let mut random = Random(seed);
    let place = tempdir().unwrap();
    let mut saves = Saves::new(place.path().join("s.save"), [64, 64, 16]);
    let keep = |folder: &Path| command(folder, &["keep", place.path().join("s.save").to_str().unwrap(), "--label", "trial"]);
    saves.next();
    let begun = Instant::now();
    assert!(keep(&place.path().join("whole")).status().unwrap().success());
    let mut whole = begun.elapsed();
    // by how many files were added: none, the save, the save and its note
    let (mut ends, mut killed) = ([0; 3], 0);
    let folder = place.path().join("standing");
    for round in 0..KILLS {
        let save = saves.next();
        let before = files(&folder);
        let told = format!("seed {seed}, round {round}");
        let mut child = keep(&folder).spawn().unwrap();
        sleep(Duration::from_nanos(random.below(whole.as_nanos() as u64)));
        child.kill().unwrap();
        let ended = child.wait().unwrap().signal() != Some(9);
        killed += usize::from(!ended);
        // what a keep takes changes with what else the machine does: three in ten are let come to their end
        whole = whole.mul_f64(if ended { 0.93 } else { 1.03 });
        ends[check(&before, &folder, &save, &told)] += 1;
        // what was cut off can be done again
        if round % 8 == 7 {
            assert!(keep(&folder).status().unwrap().success(), "{told}");
            assert_eq!(check(&before, &folder, &save, &told), 2, "{told}");
        }
        if before.len() / 2 >= FULL {
            fs::remove_dir_all(&folder).unwrap();
        }
    }
    println!(
        "seed {seed}: a keep takes about {whole:?}; {killed} of {KILLS} killed; added nothing, save, save and note: {ends:?}"
    );
    assert!(killed > KILLS / 8, "seed {seed}: only {killed} were killed before their end");
}
