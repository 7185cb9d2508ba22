//! Makes a crate of the original's files. Nothing of them comes into the repository: each is copied
//! into the folder of built things, with `pub` put before every struct and field that has none. The
//! comparison reads and fills arrays that the original keeps to itself (the layer's memories and
//! tables, the polarizations); no line that computes is another one in phyz-em.
//!
//! They are looked for in the folder that PHYZ_EM_SRC names, taken from the repository's top, and
//! without it in the documents' folder beside the repository.
//!
//! The crate phyz-em-2019 is made by this file too. In its copy the lines that say EPS0, MU0 and c0
//! say the constants of document 02's S-7, so that a study that has them is compared in every bit as
//! well.

use std::path::{Path, PathBuf};
use std::{env, fs};

const USUAL: &str = "../shared/docs/src/crates/phyz-em/src";

/// Each text of the original that says a constant, how often it stands there, and what the copy of
/// phyz-em-2019 has in its place. Every other use goes by these.
const CONSTANTS: [(&str, usize, &str); 4] = [
    ("f64 = 8.854187817e-12;", 1, "f64 = 8.8541878128e-12;"),
    (
        "f64 = 4.0 * std::f64::consts::PI * 1e-7;",
        1,
        "f64 = 1.25663706212e-6;",
    ),
    ("1.0 / (EPS0 * MU0).sqrt()", 2, "299792458.0"),
    ("1.0 / (eps0 * mu0).sqrt()", 1, "299792458.0"),
];

fn main() {
    println!("cargo::rerun-if-env-changed=PHYZ_EM_SRC");
    println!("cargo::rustc-check-cfg=cfg(original)");
    let folder = source_folder();
    println!("cargo::rerun-if-changed={}", folder.display());
    println!("cargo::metadata=folder={}", folder.display());
    let files = rust_files(&folder);
    if files.is_empty() {
        println!(
            "cargo::warning=the original is not in {}: comparisons with it are skipped",
            folder.display()
        );
    } else {
        println!("cargo::rustc-cfg=original");
        println!("cargo::metadata=found=yes");
    }
    let mut texts: Vec<String> = files.iter().map(|file| text(file)).collect();
    if env::var("CARGO_PKG_NAME").unwrap() == "phyz-em-2019" && !files.is_empty() {
        for constant in &CONSTANTS {
            put(constant, &mut texts);
        }
    }
    let out = PathBuf::from(env::var("OUT_DIR").unwrap());
    let modules = files.iter().zip(&texts);
    let lib: String = modules
        .map(|(file, text)| declaration(file, text, &out))
        .collect();
    fs::write(out.join("lib.rs"), lib).unwrap();
}

fn text(file: &Path) -> String {
    fs::read_to_string(file).unwrap()
}

/// Puts a constant into all texts. One that stands elsewhere than it is known to would be left as it is.
fn put((old, times, new): &(&str, usize, &str), texts: &mut [String]) {
    let found: usize = texts.iter().map(|text| text.matches(old).count()).sum();
    assert_eq!(found, *times, "places in the original that say {old}");
    for text in texts {
        *text = text.replace(old, new);
    }
}

fn source_folder() -> PathBuf {
    let package = PathBuf::from(env::var("CARGO_MANIFEST_DIR").unwrap());
    let top = package.ancestors().nth(2).unwrap();
    top.join(env::var("PHYZ_EM_SRC").unwrap_or_else(|_| USUAL.into()))
}

/// The Rust files of a folder in the order of their names: none where there is no such folder.
fn rust_files(folder: &Path) -> Vec<PathBuf> {
    let entries = fs::read_dir(folder).into_iter().flatten();
    let mut files: Vec<PathBuf> = entries
        .map(|entry| entry.unwrap().path())
        .filter(|path| path.extension().is_some_and(|e| e == "rs"))
        .filter(|path| path.file_stem().is_some_and(|s| s != "lib"))
        .collect();
    files.sort();
    files
}

/// Puts the opened copy of a file into `out`, and declares it as a module.
fn declaration(file: &Path, text: &str, out: &Path) -> String {
    let module = file.file_stem().unwrap().to_str().unwrap();
    let copy = out.join(format!("opened_{module}.rs"));
    fs::write(&copy, opened(text)).unwrap();
    format!(
        "#[path = {:?}]\npub mod {module};\n",
        copy.display().to_string()
    )
}

/// The text with `pub` before structs and their fields. It is laid out as rustfmt does: a struct
/// starts and ends at the margin, and its fields stand four places in.
fn opened(text: &str) -> String {
    let mut inside = false;
    let mut copy = String::new();
    for line in text.lines() {
        let private = line.starts_with("struct ");
        if private || line.starts_with("pub struct ") {
            inside = line.ends_with('{');
        } else if line == "}" {
            inside = false;
        }
        match line.strip_prefix("    ").filter(|_| inside) {
            Some(field) if is_private_field(field) => copy += &format!("    pub {field}\n"),
            _ if private => copy += &format!("pub {line}\n"),
            _ => copy += &format!("{line}\n"),
        }
    }
    copy
}

fn is_private_field(line: &str) -> bool {
    let name = line.split(':').next().unwrap();
    line.contains(':')
        && name
            .chars()
            .all(|c| c.is_ascii_lowercase() || c.is_ascii_digit() || c == '_')
}
