//! Links the engine's static library, which `make engine` proves and writes, and tells which one it is.

use sha2::{Digest, Sha256};
use std::path::{Path, PathBuf};
use std::process::Command;
use std::{env, fs};

fn main() {
    let package = PathBuf::from(env::var("CARGO_MANIFEST_DIR").unwrap());
    let top = package.ancestors().nth(2).unwrap();
    let folder = top.join("target/staticlib");
    let library = folder.join("libapi.a");
    let Ok(bytes) = fs::read(&library) else {
        panic!("{} is not there: run `make engine` at the repository's top first", library.display());
    };
    println!("cargo::rerun-if-changed={}", library.display());
    println!("cargo::rustc-link-search=native={}", folder.display());
    println!("cargo::rustc-link-lib=static=api");

    let digest: String = Sha256::digest(&bytes).iter().take(8).map(|byte| format!("{byte:02x}")).collect();
    println!("cargo::rustc-env=ENGINE_DIGEST={digest}");
    println!("cargo::rustc-env=PROOF_KIT={}", proof_kit(top));
}

/// The line of `rt version`; where there is no `rt` any more, the one that stands in the repository.
fn proof_kit(top: &Path) -> String {
    let recorded = top.join("RATTLE-KIT");
    println!("cargo::rerun-if-changed={}", recorded.display());
    let told = Command::new("rt").arg("version").output().ok().filter(|out| out.status.success());
    let line = told.map_or_else(|| fs::read(recorded).unwrap_or_default(), |out| out.stdout);
    String::from_utf8_lossy(&line).trim().to_string()
}
