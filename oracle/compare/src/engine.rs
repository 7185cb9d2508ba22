//! The engine, as its C interface has it: include/cichowiej.h says what each function does.

#[rustfmt::skip]
#[path = "../../../include/cichowiej.rs"]
mod bindings;
pub mod block;
mod study;

pub use bindings::*;
pub use study::{Answer, BEFORE};

/// A block and stores that the comparison may also fill with what no caller would.
pub type Study = Lent;
