//! S-13, how far a change can reach: two runs that are alike in all cells within n of a named one have the same numbers
//! in that cell after n steps. Random pairs of runs; that no smaller distance would do; and what comes of pairs that fail
//! in one premise: all but the clock, which no number depends on, are needed. Read from documents 01 and 02 alone.
//!
//! CICHOWIEJ_PAIRS sets the number of random pairs, and CICHOWIEJ_SEED plays the one of a seed that a failure has named.

mod cell;
mod draw;
mod ends;
mod grid;
mod pair;
mod pairs;
mod premises;
mod record;
mod stale;
mod tally;
mod tight;
mod trial;

use compare::complaint;
use std::fmt::Display;

/// A part of a test; where it panics, what it was is said too.
fn told<T>(what: impl Display, part: impl FnOnce() -> T) -> T {
    let mut out = None;
    if let Some(said) = complaint(|| out = Some(part())) {
        panic!("{what}: {said}");
    }
    out.unwrap()
}
