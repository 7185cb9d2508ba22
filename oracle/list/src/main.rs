//! The fixed list of studies with the original's answers, on standard output: crates/replay says how
//! it is laid out, and runs it. In oracle/:
//!
//!     cargo run --release -p list > ../crates/replay/stdin
//!
//! The answers come from the original alone, those to studies with the constants of 2019 from the copy
//! with these in its text: the comparison's files are taken in without the engine's library, which is
//! not even linked, so that a call of it would not build.

#![cfg_attr(not(original), allow(unused))]
#![allow(dead_code)]

/// The comparison's own files: calls, stores filled, the original's side.
#[path = "../../compare/src"]
mod comparison {
    pub mod call;
    pub mod engine;
    pub mod fill;
    pub mod judge;
    pub mod random;
    pub mod save;
    #[cfg(original)]
    pub mod theirs;
}
#[cfg(original)]
mod make;
#[cfg(original)]
mod studies;
#[cfg(original)]
mod write;

use comparison::random::{Mix, Random};
#[cfg(original)]
use comparison::theirs;
use comparison::{call, engine, fill, judge, save};

/// Equal in every bit, with all NaNs counted as one.
fn agree(a: f64, b: f64) -> bool {
    a.to_bits() == b.to_bits() || (a.is_nan() && b.is_nan())
}

#[cfg(not(original))]
fn main() {
    panic!("the original is not there: PHYZ_EM_SRC names its folder");
}

#[cfg(original)]
fn main() {
    use std::io::{Write, stdout};
    let kinds = studies::all();
    let mut bytes = (kinds.len() as u32).to_le_bytes().to_vec();
    for (seed, kind) in kinds.iter().enumerate() {
        let (mut theirs, samples) = kind.make(seed as u64);
        bytes.extend(write::before(theirs.expected(), &samples));
        let refusal = theirs.apply(&call::Call::Run(samples)).refusal;
        assert_eq!(refusal, 0, "study {}", seed + 1);
        bytes.extend(write::after(theirs.expected()));
    }
    stdout().write_all(&bytes).unwrap();
}
