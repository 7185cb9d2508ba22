//! The name of a set of constants, in a head's file and in a script.

use cichowiej::Constants;
use serde::de::{self, Deserializer, Visitor};
use std::fmt;

/// The set with a name.
pub fn read(name: &str) -> Result<Constants, String> {
    Constants::named(name).ok_or_else(|| format!("{name:?} is no set of constants: take {}", names("")))
}

/// All there are, each between two marks.
fn names(mark: &str) -> String {
    Constants::ALL.map(|constants| format!("{mark}{constants}{mark}")).join(" or ")
}

struct Reading;

impl Visitor<'_> for Reading {
    type Value = Constants;

    fn expecting(&self, f: &mut fmt::Formatter) -> fmt::Result {
        write!(f, "a set of constants by its name, {}", names("\""))
    }

    fn visit_str<E: de::Error>(self, name: &str) -> Result<Constants, E> {
        read(name).map_err(E::custom)
    }
}

/// In a head's file: a string, so that 2019 without its marks is told.
pub fn deserialize<'de, D: Deserializer<'de>>(from: D) -> Result<Constants, D::Error> {
    from.deserialize_any(Reading)
}
