//! SHA-256 of what is read, and of this program.

use sha2::{Digest, Sha256};
use std::sync::OnceLock;

/// In hexadecimal digits.
pub fn sha256(bytes: &[u8]) -> String {
    hex(&Sha256::digest(bytes))
}

pub fn hex(bytes: &[u8]) -> String {
    bytes.iter().map(|byte| format!("{byte:02x}")).collect()
}

/// What stands for a program whose file cannot be read.
pub const UNKNOWN: &str = "unknown";

/// The SHA-256 of this program's file: sums and sampling are the program's, and not the engine's.
pub fn program() -> String {
    static DIGEST: OnceLock<String> = OnceLock::new();
    // the file that runs, should another have taken its name
    let read = || std::fs::read("/proc/self/exe").or_else(|_| std::env::current_exe().and_then(std::fs::read));
    DIGEST.get_or_init(|| read().map_or(UNKNOWN.into(), |bytes| sha256(&bytes))).clone()
}
