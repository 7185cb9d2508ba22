//! The engine's time for a step beside the original's, on the same studies in one run; for steps taken one
//! by one beside those of a run; for small calls; and for the largest save and the rewind to it, beside a
//! plain copy's.
//!
//! Both are built for the processor's common ground (no flag names a newer one); the original with
//! the workspace's release profile: opt-level 3, one codegen unit, no link-time optimization. In a
//! round ours and theirs take turns, the other one first in every second round, and at the end every number
//! of both has to agree.

mod calls;
mod clock;
mod saves;
#[cfg(original)]
mod studies;
#[cfg(original)]
mod timing;

use std::env;

/// Everything, or with the word `calls` or `saves` these alone.
fn main() {
    match env::args().nth(1).as_deref() {
        Some("calls") => calls::print(),
        Some("saves") => saves::print(),
        _ => {
            steps();
            calls::print();
            saves::print();
        }
    }
}

#[cfg(original)]
fn steps() {
    println!(
        "original: opt-level 3, codegen-units 1, lto off; ns for a cell and step, best of the rounds (median)"
    );
    let names = ["study", "ours", "theirs", "ratio", "target"];
    println!("{}", clock::heading(names));
    for study in studies::all() {
        println!("{}", timing::row(&study));
    }
    println!(
        "steps one by one: each reads the block and looks at every id; ns for a cell and step, best of the rounds (median); the target is the most"
    );
    let names = ["study", "one by one", "in a run", "ratio", "target"];
    println!("{}", clock::heading(names));
    for study in studies::single() {
        println!("{}", timing::single_row(&study));
    }
}

#[cfg(not(original))]
fn steps() {
    println!(
        "the original's source is not there (PHYZ_EM_SRC names its folder): nothing to set steps beside"
    );
}
