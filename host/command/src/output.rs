//! The curve for people and for their programs.

pub mod page;
pub mod picture;
pub mod table;
