//! Is it physics? The engine against closed forms, its absorbing layer, a cavity's energy, the mills' accident repeated, and the same
//! slabs by the original.

use cichowiej::Constants;

/// What is held against closed forms has these; with those of 2019 the engine is held against the original.
pub const CONSTANTS: Constants = Constants::Old;

pub mod accident;
pub mod cavity;
pub mod document;
pub mod errors;
pub mod layer;
#[cfg(original)]
mod random;
pub mod report;
pub mod same;
pub mod scheme;
pub mod slabs;
pub mod theory;

/// The original as it is.
#[cfg(original)]
#[path = "."]
mod old {
    use phyz_em as original;
    pub mod theirs;
}

/// The original with the constants of 2019 in its text.
#[cfg(original)]
#[path = "."]
mod new {
    use phyz_em_2019 as original;
    #[allow(clippy::duplicate_mod)]
    pub mod theirs;
}
