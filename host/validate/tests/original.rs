//! The slabs at 10 cells a wavelength and the layer's tables against the original, bit by bit; and how near the product's own tables are. It prints a line of its own, so that a run without an
//! original does not look like one that compared.

use cichowiej::Constants;
use std::process::ExitCode;
use validate::same::{self, Same};

fn main() -> ExitCode {
    println!("{}", same::told());
    let all = Constants::ALL.map(compared);
    if all.iter().all(|passed| *passed) { ExitCode::SUCCESS } else { ExitCode::FAILURE }
}

fn compared(constants: Constants) -> bool {
    let slabs = match same::slabs(10, constants) {
        Ok(slabs) => slabs,
        Err(refusal) => {
            println!("FAILED: refused: {refusal}");
            return false;
        }
    };
    let all = [("slabs", slabs), ("the layer's tables", same::layer_tables(5000, constants))];
    all.iter().all(|(name, same)| passed(&format!("{name}, constants {constants}"), same.as_ref())) && near(constants)
}

/// The tables that the product has, which are not the original's in their last bits.
fn near(constants: Constants) -> bool {
    let Some(farthest) = same::own_tables(5000, constants) else { return !same::FOUND };
    let near = same::are_near(farthest);
    let [kinv, b, c] = farthest;
    let failed = if near { "" } else { "FAILED: " };
    println!(
        "{failed}own tables, constants {constants}: 1/kappa, b and c differ by up to {kinv:.1e}, {b:.1e} and {c:.1e} of themselves"
    );
    near
}

fn passed(name: &str, same: Option<&Same>) -> bool {
    // where there is no original, nothing was compared, and the first line says so
    let Some(Same { numbers, difference }) = same else { return !same::FOUND };
    match difference {
        None => println!("{name}: equal in every bit, {numbers} numbers"),
        Some(place) => println!("FAILED: {name} differ first in {place}"),
    }
    difference.is_none() && *numbers > 0
}
