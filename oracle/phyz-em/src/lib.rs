//! The original, compiled from its own files; an empty crate where they are not there.

#![allow(warnings, clippy::all)]

include!(concat!(env!("OUT_DIR"), "/lib.rs"));
