//! A point's reading as a small file of text, from which every number comes back as it was.

use crate::curve::study::{Reading, Sums};
use crate::digest::{UNKNOWN, program, sha256};
use crate::document;
use crate::text::brief;
use cichowiej::{Complex, ENGINE, Layer};
use serde::{Deserialize, Serialize};
use std::io;
use thiserror::Error;

/// Why a point has no reading.
#[derive(Debug, Error)]
pub enum Unusable {
    #[error("not there")]
    Absent,
    #[error("cannot be read: {0}")]
    Unreadable(io::Error),
    #[error("damaged")]
    Damaged,
    #[error("of another head, whose SHA-256 is {}", brief(.0))]
    OtherHead(String),
    #[error("of another engine, {}", brief(.0))]
    OtherEngine(String),
    #[error("of another build of this program")]
    OtherProgram,
    #[error("of another point, {0}")]
    OtherPoint(usize),
}

/// A double as the 16 hexadecimal digits of its bits; every NaN as the same one.
#[derive(Debug, Clone, Copy, Serialize, Deserialize)]
#[serde(into = "String", try_from = "String")]
struct Bits(f64);

const NAN: u64 = 0x7ff8_0000_0000_0000;

impl From<Bits> for String {
    fn from(Bits(number): Bits) -> Self {
        let bits = if number.is_nan() { NAN } else { number.to_bits() };
        format!("{bits:016x}")
    }
}

impl TryFrom<String> for Bits {
    type Error = String;

    fn try_from(digits: String) -> Result<Self, String> {
        match u64::from_str_radix(&digits, 16) {
            Ok(bits) if digits.len() == 16 => Ok(Self(f64::from_bits(bits))),
            _ => Err(format!("{digits:?} is not 16 hexadecimal digits")),
        }
    }
}

/// Complex numbers as pairs, the real part first.
type Pairs = Vec<[Bits; 2]>;

/// The file's keys.
#[derive(Serialize, Deserialize)]
#[serde(deny_unknown_fields)]
struct Record {
    engine: String,
    /// The program's SHA-256.
    program: String,
    /// The head's SHA-256.
    input: String,
    point: usize,
    /// On x, y and z; neither is there where no layer was asked for.
    layer_asked: Option<[bool; 3]>,
    layer_active: Option<[bool; 3]>,
    energy: Bits,
    peak: Bits,
    end: Bits,
    transmitted: Pairs,
    reflected: Option<Pairs>,
    /// After four fifths of the run.
    early_transmitted: Pairs,
    early_reflected: Option<Pairs>,
}

fn to_bits(sums: &[Complex]) -> Pairs {
    sums.iter().map(|sum| [Bits(sum.re), Bits(sum.im)]).collect()
}

fn from_bits(sums: &Pairs) -> Vec<Complex> {
    sums.iter().map(|[re, im]| Complex::new(re.0, im.0)).collect()
}

impl Record {
    fn new(digest: &str, number: usize, reading: &Reading) -> Self {
        Self {
            engine: ENGINE.into(),
            program: program(),
            input: digest.into(),
            point: number,
            layer_asked: reading.layer.map(|layer| layer.asked),
            layer_active: reading.layer.map(|layer| layer.active),
            energy: Bits(reading.energy),
            peak: Bits(reading.peak),
            end: Bits(reading.end),
            transmitted: to_bits(&reading.sums.transmitted),
            reflected: reading.sums.reflected.as_deref().map(to_bits),
            early_transmitted: to_bits(&reading.early.transmitted),
            early_reflected: reading.early.reflected.as_deref().map(to_bits),
        }
    }

    fn reading(&self) -> Reading {
        let sums = |transmitted, reflected: Option<&Pairs>| Sums {
            transmitted: from_bits(transmitted),
            reflected: reflected.map(from_bits),
        };
        Reading {
            sums: sums(&self.transmitted, self.reflected.as_ref()),
            early: sums(&self.early_transmitted, self.early_reflected.as_ref()),
            energy: self.energy.0,
            peak: self.peak.0,
            end: self.end.0,
            layer: self.layer_asked.zip(self.layer_active).map(|(asked, active)| Layer { asked, active }),
        }
    }
}

const TITLE: &str = "# A point of a curve: each number as the 16 hexadecimal digits of a double's bits. The last line has the SHA-256 of all above it.\n";

/// The last line.
fn seal(body: &str) -> String {
    format!("sha256 = \"{}\"\n", sha256(body.as_bytes()))
}

/// The file's text.
pub fn text(digest: &str, number: usize, reading: &Reading) -> Result<String, toml::ser::Error> {
    let body = format!("{TITLE}{}", toml::to_string(&Record::new(digest, number, reading))?);
    let seal = seal(&body);
    Ok(body + &seal)
}

/// The reading in a file, which has to be whole, and that of this engine, program, head and point.
pub fn parse(bytes: &[u8], digest: &str, number: usize) -> Result<Reading, Unusable> {
    let record = whole(bytes).ok_or(Unusable::Damaged)?;
    if record.input != digest {
        return Err(Unusable::OtherHead(record.input));
    }
    if record.engine != ENGINE {
        return Err(Unusable::OtherEngine(record.engine));
    }
    if record.program != program() || record.program == UNKNOWN {
        return Err(Unusable::OtherProgram);
    }
    if record.point != number {
        return Err(Unusable::OtherPoint(record.point));
    }
    Ok(record.reading())
}

/// None where the last line is not that of the text above it, or the text is no record.
fn whole(bytes: &[u8]) -> Option<Record> {
    let text = std::str::from_utf8(bytes).ok()?;
    let (body, last) = text.split_at_checked(text.rfind("sha256 = ")?)?;
    if last == seal(body) { document::parse(body).ok() } else { None }
}

#[cfg(test)]
mod tests {
    use super::*;

    fn reading() -> Reading {
        let transmitted = vec![Complex::new(0.1, -0.0), Complex::new(f64::INFINITY, 5e-324), Complex::new(1.0 / 3.0, -1e300)];
        let early = vec![Complex::new(0.2, 0.0), Complex::new(-5e-324, 1.0), Complex::new(1e-300, -0.0)];
        Reading {
            sums: Sums { transmitted, reflected: None },
            early: Sums { transmitted: early, reflected: Some(vec![Complex::new(-0.5, 0.25)]) },
            energy: f64::NAN,
            peak: -f64::NAN,
            end: f64::MIN_POSITIVE,
            layer: Some(Layer { asked: [true, false, true], active: [false, false, true] }),
        }
    }

    #[test]
    fn every_number_comes_back() {
        let text = text("abc", 3, &reading()).unwrap();
        assert!(text.contains("energy = \"7ff8000000000000\"\npeak = \"7ff8000000000000\"\n"), "{text}");
        let back = parse(text.as_bytes(), "abc", 3).unwrap();
        let bits = |sums: &[Complex]| -> Vec<u64> { sums.iter().flat_map(|sum| [sum.re.to_bits(), sum.im.to_bits()]).collect() };
        assert_eq!(bits(&back.sums.transmitted), bits(&reading().sums.transmitted));
        assert_eq!(bits(&back.early.transmitted), bits(&reading().early.transmitted));
        assert_eq!(back.early.reflected, reading().early.reflected);
        assert!(back.energy.is_nan() && back.peak.is_nan() && back.end == f64::MIN_POSITIVE);
        assert_eq!((back.layer, back.sums.reflected.is_none()), (reading().layer, true));
    }

    #[test]
    fn a_byte_more_less_or_changed_is_damage() {
        let text = text("abc", 3, &reading()).unwrap();
        for at in 0..text.len() {
            let mut bytes = text.as_bytes().to_vec();
            assert!(matches!(parse(&bytes[..at], "abc", 3), Err(Unusable::Damaged)), "cut at {at}");
            bytes[at] ^= 1;
            assert!(matches!(parse(&bytes, "abc", 3), Err(Unusable::Damaged)), "changed at {at}");
        }
        assert!(matches!(parse((text + "\n").as_bytes(), "abc", 3), Err(Unusable::Damaged)));
    }

    #[test]
    fn another_head_or_point_is_named() {
        let text = text("abc", 3, &reading()).unwrap();
        assert_eq!(parse(text.as_bytes(), "abd", 3).unwrap_err().to_string(), "of another head, whose SHA-256 is abc");
        assert_eq!(parse(text.as_bytes(), "abc", 4).unwrap_err().to_string(), "of another point, 3");
    }
}
