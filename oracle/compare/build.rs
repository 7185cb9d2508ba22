//! Links the engine's static library, and passes on whether and where the original was found.

use std::env;
use std::path::PathBuf;

fn main() {
    let folder = library_folder();
    let library = folder.join("libapi.a");
    assert!(
        library.exists(),
        "{} is not there: run `make engine` at the repository's top first",
        library.display()
    );
    println!("cargo::rerun-if-changed={}", library.display());
    println!("cargo::rustc-link-search=native={}", folder.display());
    println!("cargo::rustc-link-lib=static=api");

    println!("cargo::rustc-check-cfg=cfg(original)");
    if env::var("DEP_PHYZ_EM_FOUND").is_ok() {
        println!("cargo::rustc-cfg=original");
    }
    let original = env::var("DEP_PHYZ_EM_FOLDER").unwrap();
    println!("cargo::rustc-env=ORIGINAL={original}");
}

/// CICHOWIEJ_LIBRARY names the folder of another library than this tree's, so that two can be timed by one bench.
fn library_folder() -> PathBuf {
    println!("cargo::rerun-if-env-changed=CICHOWIEJ_LIBRARY");
    let package = PathBuf::from(env::var("CARGO_MANIFEST_DIR").unwrap());
    let own = package.ancestors().nth(2).unwrap().join("target/staticlib");
    env::var("CICHOWIEJ_LIBRARY").map_or(own, PathBuf::from)
}
