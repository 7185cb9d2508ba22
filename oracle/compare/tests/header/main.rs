//! The header, the engine's source and the declarations here say the same; callers in C and C++ that
//! include the header are understood; and what it says is what the engine does, as C sees it
//! (oracle/header has a file for each theme).

mod changes;
mod program;
mod signatures;

use compare::engine::{cichowiej_eps0, cichowiej_mu0};
use compare::{report, top};
use program::{program, source};
use signatures::{Signatures, of_header, of_source};
use std::fs;
use std::path::{Path, PathBuf};
use std::process::Command;
use std::sync::OnceLock;

fn header() -> Signatures {
    of_header(&fs::read_to_string(top().join("include/cichowiej.h")).unwrap())
}

/// The texts of the source files, in any order.
fn engine_source() -> String {
    let entries = fs::read_dir(top().join("crates/api_c/src")).unwrap();
    let files = entries.map(|entry| entry.unwrap().path());
    let texts = files.filter(|path| path.extension().is_some_and(|e| e == "rt"));
    texts
        .map(|path| fs::read_to_string(path).unwrap())
        .collect()
}

/// Names, types and names of parameters, and the answer's type, both ways.
fn same(header: &Signatures, other: &Signatures, which: &str) {
    for (name, signature) in header {
        assert_eq!(Some(signature), other.get(name), "{name} in {which}");
    }
    for name in other.keys() {
        assert!(header.contains_key(name), "{name} is not in the header");
    }
}

#[test]
fn the_header_declares_what_the_engine_has() {
    let header = header();
    assert!(header.len() > 11);
    let source = of_source(
        &engine_source(),
        "#[unsafe(no_mangle)]\npub extern \"C\" fn ",
    );
    same(&header, &source, "the engine's source");
    report(&format!("header: {} functions", header.len()));
}

#[test]
fn the_declarations_here_are_the_headers() {
    let text = include_str!("../../../../include/cichowiej.rs");
    same(&header(), &of_source(text, "fn "), "include/cichowiej.rs");
}

/// Document 01's sample study: the source alone has moved, and its place holds the sample. Then
/// readings, and a number that a rewind brings back.
fn understood(program: &Path) {
    let energy = 0.5 * cichowiej_eps0() * 4.0 + 0.5 * cichowiej_mu0() * 9.0;
    let lines = [
        "open: refusal 0".to_string(),
        "slab: refusal 0".to_string(),
        "step: refusal 0".to_string(),
        format!("line at 6: refusal 0, {:016X}", 3f64.to_bits()),
        "others that are not +0.0: 0".to_string(),
        format!("time: refusal 1, {:016X}", 1f64.to_bits()),
        format!("plane 5: refusal 0, {:016X}", 6f64.to_bits()),
        format!("plane 40: refusal 17, {:016X}", 0f64.to_bits()),
        format!("energy: refusal 0, {:016X}", energy.to_bits()),
        "save length: refusal 0, 11529".to_string(),
        "save: refusal 0, GH".to_string(),
        "save, no room: refusal 12".to_string(),
        format!("rewind, short: refusal 13, {:016X}", 0f64.to_bits()),
        format!("rewind: refusal 0, {:016X}", 2f64.to_bits()),
    ];
    let ran = Command::new(program).output().unwrap();
    assert!(ran.status.success());
    let said = String::from_utf8(ran.stdout).unwrap();
    assert_eq!(said.lines().collect::<Vec<_>>(), lines);
}

#[test]
fn a_caller_in_c() {
    understood(&program(
        "gcc",
        &["-std=c99"],
        &[source("caller.c")],
        "caller",
    ));
}

#[test]
fn a_caller_in_cpp() {
    let options = ["-std=c++11", "-x", "c++"];
    understood(&program("g++", &options, &[source("caller.c")], "caller++"));
}

/// The program of the checks, compiled once, each file by itself.
fn checks() -> &'static Path {
    static PROGRAM: OnceLock<PathBuf> = OnceLock::new();
    PROGRAM.get_or_init(|| {
        let entries = fs::read_dir(source("")).unwrap();
        let files = entries.map(|entry| entry.unwrap().path());
        let whole = ["caller.c", "all.c"].map(source);
        let files = files.filter(|path| path.extension().is_some_and(|e| e == "c"));
        let files: Vec<_> = files.filter(|path| !whole.contains(path)).collect();
        program("gcc", &["-std=c99"], &files, "checks")
    })
}

/// Each theme is a test: what the program says is where it fails.
macro_rules! themes {
    ($($theme:ident)*) => {
        mod theme {
            $(
                #[test]
                fn $theme() {
                    let ran = super::Command::new(super::checks()).arg(stringify!($theme)).output().unwrap();
                    assert!(ran.status.success(), "{}", String::from_utf8_lossy(&ran.stdout));
                }
            )*
        }
    };
}

themes! {
    limits refusals precedence record materials poles bad_poles lengths parts tables walls regions effects steps saves pointers
    wrappers bytes nans overlap constants
}
