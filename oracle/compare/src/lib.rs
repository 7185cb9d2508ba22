//! What the comparisons share: the engine's calls, the original's side, random studies, poles and doubles,
//! the save read once more, and when two numbers agree.

use std::io::{Write, stdout};
use std::panic::{AssertUnwindSafe, catch_unwind};
use std::path::{Path, PathBuf};
use std::{env, fs};

pub mod call;
pub mod choose;
pub mod damage;
pub mod difference;
pub mod engine;
pub mod fill;
pub mod judge;
pub mod poles;
mod random;
pub mod save;
pub mod sound;
#[cfg(original)]
pub mod studies;
#[cfg(original)]
pub mod theirs;

pub use random::{EDGES, FRACTION, Mix, Random, SIGN};

/// Equal in every bit, with all NaNs counted as one.
pub fn agree(a: f64, b: f64) -> bool {
    a.to_bits() == b.to_bits() || (a.is_nan() && b.is_nan())
}

/// The repository's top.
pub fn top() -> PathBuf {
    let package = Path::new(env!("CARGO_MANIFEST_DIR"));
    package.ancestors().nth(2).unwrap().into()
}

/// A file of the repository, by its path from the top.
pub fn read(path: &str) -> String {
    fs::read_to_string(top().join(path)).unwrap_or_else(|e| panic!("{path}: {e}"))
}

/// The files below a folder, as paths from the repository's top. A crate's out/ is no part of the repository.
pub fn files(folder: &str, ending: &str) -> Vec<String> {
    fn walk(dir: &Path, ending: &str, out: &mut Vec<String>) {
        for entry in fs::read_dir(dir).unwrap() {
            let path = entry.unwrap().path();
            if path.is_dir() {
                if !path.ends_with("out") {
                    walk(&path, ending, out);
                }
            } else if path.to_str().unwrap().ends_with(ending) {
                let short = path.strip_prefix(top()).unwrap();
                out.push(short.to_str().unwrap().to_string());
            }
        }
    }
    let mut out = Vec::new();
    walk(&top().join(folder), ending, &mut out);
    out.sort();
    out
}

/// A whole number that an environment variable has, where it is set.
pub fn variable(name: &str) -> Option<u64> {
    let text = env::var(name).ok()?;
    Some(text.parse().expect("a whole number"))
}

/// What a part of a test says where it panics.
pub fn complaint(part: impl FnOnce()) -> Option<String> {
    let fault = catch_unwind(AssertUnwindSafe(part)).err()?;
    let said = fault.downcast_ref::<String>().cloned();
    let said = said.or(fault.downcast_ref::<&str>().map(|s| s.to_string()));
    Some(said.unwrap_or_default())
}

/// A line that is seen in a passing test too: the harness keeps back what `println!` writes.
pub fn report(line: &str) {
    stdout().write_all(format!("{line}\n").as_bytes()).unwrap();
}
