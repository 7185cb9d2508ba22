//! Programs in C that include the header and are linked with the engine.

use compare::top;
use std::path::{Path, PathBuf};
use std::process::{Command, Output};

/// Every warning is an error.
pub const STRICT: [&str; 5] = ["-Wall", "-Wextra", "-Wpedantic", "-Wconversion", "-Werror"];

/// A file below oracle/header.
pub fn source(name: &str) -> PathBuf {
    top().join("oracle/header").join(name)
}

/// A place for what is made here.
pub fn made(name: &str) -> PathBuf {
    Path::new(env!("CARGO_TARGET_TMPDIR")).join(name)
}

/// A compiler's answer. `header` is the folder that has the header.
pub fn compiled(
    compiler: &str,
    options: &[&str],
    header: &Path,
    sources: &[PathBuf],
    to: &Path,
) -> Output {
    Command::new(compiler)
        .args(options)
        .args(["-I".as_ref(), header.as_os_str()])
        .args(["-o".as_ref(), to.as_os_str()])
        .args(sources)
        .args(["-x", "none"])
        .arg(top().join("target/staticlib/libapi.a"))
        .arg("-lm")
        .output()
        .unwrap_or_else(|e| panic!("{compiler}: {e}"))
}

/// Compiles with the repository's header, and panics where the compiler has anything to say.
pub fn program(compiler: &str, options: &[&str], sources: &[PathBuf], name: &str) -> PathBuf {
    let to = made(name);
    let options = [&STRICT[..], options].concat();
    let output = compiled(compiler, &options, &top().join("include"), sources, &to);
    assert!(
        output.status.success(),
        "{}",
        String::from_utf8_lossy(&output.stderr)
    );
    to
}
