//! Quantities in a head's file: a number in SI, or a string with a unit, as "25 um" or "9.4 GHz".

use serde::de::{self, Deserialize, Deserializer, SeqAccess, Visitor};
use std::fmt;

/// A kind of quantity: what it is called, and its units with their sizes in SI.
struct Kind {
    what: &'static str,
    units: &'static [(&'static str, f64)],
}

impl Kind {
    fn names(&self) -> String {
        let names: Vec<&str> = self.units.iter().map(|(name, _)| *name).collect();
        names.join(", ")
    }

    /// A number, blanks if any, a unit.
    fn parse(&self, text: &str) -> Result<f64, String> {
        let text = text.trim();
        let end = text.find(|c: char| !(c.is_ascii_digit() || "+-.eE".contains(c))).unwrap_or(text.len());
        let number: f64 = text[..end].parse().map_err(|_| format!("{text:?} is not a number with a unit"))?;
        // the sign for micro is two letters that look alike
        let unit = text[end..].trim().replace(['µ', 'μ'], "u").replace('²', "2").replace('³', "3");
        if unit.starts_with(',') {
            return Err(format!("{text:?} has a comma: take a decimal point"));
        }
        let found = self.units.iter().find(|(name, _)| *name == unit);
        let (_, size) = found.ok_or_else(|| format!("{unit:?} is no unit of {}: take one of {}", self.what, self.names()))?;
        Ok(number * size)
    }
}

struct Reading(&'static Kind);

impl Visitor<'_> for Reading {
    type Value = f64;

    fn expecting(&self, f: &mut fmt::Formatter) -> fmt::Result {
        write!(f, "{}: a number, or a string with one of the units {}", self.0.what, self.0.names())
    }

    fn visit_f64<E: de::Error>(self, number: f64) -> Result<f64, E> {
        Ok(number)
    }

    fn visit_i64<E: de::Error>(self, number: i64) -> Result<f64, E> {
        Ok(number as f64)
    }

    fn visit_str<E: de::Error>(self, text: &str) -> Result<f64, E> {
        self.0.parse(text).map_err(E::custom)
    }
}

macro_rules! quantity {
    ($name:ident, $what:literal, $($unit:literal $size:literal),+) => {
        #[doc = $what]
        #[derive(Debug, Clone, Copy, PartialEq)]
        pub struct $name(pub f64);

        impl $name {
            const KIND: Kind = Kind { what: $what, units: &[$(($unit, $size)),+] };

            /// In SI, from a number or one with a unit.
            pub fn read(text: &str) -> Result<f64, String> {
                text.parse().or_else(|_| Self::KIND.parse(text))
            }
        }

        impl<'de> Deserialize<'de> for $name {
            fn deserialize<D: Deserializer<'de>>(from: D) -> Result<Self, D::Error> {
                from.deserialize_any(Reading(&Self::KIND)).map($name)
            }
        }
    };
}

quantity!(Length, "a length", "m" 1.0, "cm" 1e-2, "mm" 1e-3, "um" 1e-6, "nm" 1e-9);
quantity!(Time, "a time", "s" 1.0, "ms" 1e-3, "us" 1e-6, "ns" 1e-9, "ps" 1e-12, "fs" 1e-15);
quantity!(Frequency, "a frequency", "Hz" 1.0, "kHz" 1e3, "MHz" 1e6, "GHz" 1e9, "THz" 1e12);
quantity!(Rate, "an angular frequency", "rad/s" 1.0);
quantity!(Grammage, "a grammage", "kg/m2" 1.0, "g/m2" 1e-3);
quantity!(Density, "a density", "kg/m3" 1.0, "g/cm3" 1e3);
quantity!(Conductivity, "a conductivity", "S/m" 1.0);

/// A cell's sizes along x, y and z: one length for all, or three in brackets.
#[derive(Debug, Clone, Copy, PartialEq)]
pub struct Pitch(pub [f64; 3]);

struct PitchReading;

impl<'de> Visitor<'de> for PitchReading {
    type Value = Pitch;

    fn expecting(&self, f: &mut fmt::Formatter) -> fmt::Result {
        write!(f, "a length, or three in brackets")
    }

    fn visit_f64<E: de::Error>(self, number: f64) -> Result<Pitch, E> {
        Ok(Pitch([number; 3]))
    }

    fn visit_i64<E: de::Error>(self, number: i64) -> Result<Pitch, E> {
        self.visit_f64(number as f64)
    }

    fn visit_str<E: de::Error>(self, text: &str) -> Result<Pitch, E> {
        self.visit_f64(Length::KIND.parse(text).map_err(E::custom)?)
    }

    fn visit_seq<A: SeqAccess<'de>>(self, mut lengths: A) -> Result<Pitch, A::Error> {
        let mut sizes = [0.0; 3];
        for (axis, size) in sizes.iter_mut().enumerate() {
            let length: Option<Length> = lengths.next_element()?;
            *size = length.ok_or_else(|| de::Error::invalid_length(axis, &self))?.0;
        }
        match lengths.next_element::<Length>()? {
            None => Ok(Pitch(sizes)),
            Some(_) => Err(de::Error::invalid_length(4, &self)),
        }
    }
}

impl<'de> Deserialize<'de> for Pitch {
    fn deserialize<D: Deserializer<'de>>(from: D) -> Result<Self, D::Error> {
        from.deserialize_any(PitchReading)
    }
}

#[cfg(test)]
mod tests {
    use super::*;

    #[derive(serde::Deserialize)]
    struct One {
        x: Length,
    }

    fn length(text: &str) -> Result<f64, String> {
        let one: Result<One, _> = toml::from_str(&format!("x = {text}"));
        one.map(|one| one.x.0).map_err(|e| e.to_string())
    }

    #[test]
    fn numbers_are_metres_and_strings_have_units() {
        assert_eq!(length("0.5"), Ok(0.5));
        assert_eq!(length("2"), Ok(2.0));
        assert_eq!(length("\"25 um\""), Ok(25.0 * 1e-6));
        assert_eq!(length("\"25um\""), Ok(25.0 * 1e-6));
        assert_eq!(length("\"2.5e1 mm\""), Ok(25.0 * 1e-3));
    }

    #[test]
    fn another_unit_is_named() {
        let error = length("\"25 GHz\"").unwrap_err();
        assert!(error.contains("\"GHz\" is no unit of a length") && error.contains("um"), "{error}");
        assert!(length("\"2,5 mm\"").unwrap_err().contains("decimal point"));
        assert_eq!((length("\"25 µm\""), length("\"25 μm\"")), (Ok(25.0 * 1e-6), Ok(25.0 * 1e-6)));
        assert!(length("\"25\"").is_err());
        assert!(length("true").unwrap_err().contains("a length"));
    }
}
