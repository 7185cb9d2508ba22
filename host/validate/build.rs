//! Passes on whether and where the original was found.

use std::env;

fn main() {
    println!("cargo::rustc-check-cfg=cfg(original)");
    if env::var("DEP_PHYZ_EM_FOUND").is_ok() {
        println!("cargo::rustc-cfg=original");
    }
    let original = env::var("DEP_PHYZ_EM_FOLDER").unwrap_or_default();
    println!("cargo::rustc-env=ORIGINAL={original}");
}
