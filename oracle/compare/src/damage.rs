//! Sound saves damaged in many ways.

mod fields;

use std::ops::Range;

use crate::engine::Study;
use crate::engine::block::{DOUBLES, HEAD, MATERIAL, PLACES, Record};
use crate::poles::ruined;
use crate::save::{self, FRAME, MARKS, OLD_HEAD};
use crate::{Random, sound};

use fields::{head_field, library_fields, nan};

#[derive(Debug, Clone, Copy, PartialEq, Eq, PartialOrd, Ord)]
pub enum Damage {
    Nothing,
    /// Some bits turned, anywhere.
    Bits,
    /// The same in GH, in ML or before a payload.
    HeadBits,
    Cut,
    Insert,
    Remove,
    /// From some place on, another save.
    Splice,
    /// Two records, each at the other's place.
    Swap,
    SwapPayloads,
    /// A record left out, or there twice.
    Drop,
    Twice,
    /// A record's payload all of one byte.
    Blank,
    /// Another mark or payload length.
    Mark,
    Length,
    /// One of 72 to 75 as GH's length, which is 73 in an old save and 74 in any other.
    HeadLength,
    /// A field of GH or ML at its limit, or past it.
    Head,
    Library,
    /// A pole that cannot be stepped in a counted place, where a material may have a pole.
    BadPole,
    /// A byte that must be zero.
    Unused,
    Nan,
    Number,
    Trailing,
    AnyBytes,
}

use Damage::*;

pub const DAMAGES: [Damage; 23] = [
    Nothing,
    Bits,
    HeadBits,
    Cut,
    Insert,
    Remove,
    Splice,
    Swap,
    SwapPayloads,
    Drop,
    Twice,
    Blank,
    Mark,
    Length,
    HeadLength,
    Head,
    Library,
    BadPole,
    Unused,
    Nan,
    Number,
    Trailing,
    AnyBytes,
];

/// Those that leave every record at its place.
const IN_PLACE: [Damage; 11] = [
    Bits, HeadBits, Mark, Length, HeadLength, Head, Library, BadPole, Unused, Nan, Number,
];

/// A sound save, its record, and where its records stand.
pub struct Sound {
    pub bytes: Vec<u8>,
    pub record: Record,
    places: Vec<Range<usize>>,
}

impl Sound {
    pub fn new(study: &Study) -> Self {
        Self::of(study, save::write(study), HEAD)
    }

    /// As it was written before there were constants, which in the study are 0.
    pub fn old(study: &Study) -> Self {
        Self::of(study, save::old(&save::write(study)), OLD_HEAD)
    }

    /// Either of them, where the study may have been saved before there were constants.
    pub fn any(random: &mut Random, study: &Study) -> Self {
        let old = study.record().unwrap().constants == 0 && random.once_in(2);
        if old {
            Self::old(study)
        } else {
            Self::new(study)
        }
    }

    fn of(study: &Study, bytes: Vec<u8>, head: usize) -> Self {
        let record = study.record().unwrap();
        let mut payloads = save::payloads(&record);
        payloads[0] = head;
        let mut end = 0;
        let places = payloads.map(|length| {
            let start = end;
            end += FRAME + length;
            start..end
        });
        Self {
            bytes,
            record,
            places: places.to_vec(),
        }
    }

    /// The save damaged, now and then in two ways; `other` is spliced in.
    pub fn damaged(&self, random: &mut Random, damage: Damage, other: &Sound) -> Vec<u8> {
        let mut bytes = self.bytes.clone();
        if damage != Nothing && random.once_in(4) {
            let first = IN_PLACE[random.index(IN_PLACE.len())];
            self.damage(random, first, &mut bytes, other);
            if bytes.len() != self.bytes.len() {
                return bytes;
            }
        }
        self.damage(random, damage, &mut bytes, other);
        bytes
    }

    fn damage(&self, random: &mut Random, damage: Damage, bytes: &mut Vec<u8>, other: &Sound) {
        let at = random.index(MARKS.len());
        let place = self.places[at].clone();
        match damage {
            Nothing => {}
            Bits => turn(random, bytes, 0..self.bytes.len()),
            HeadBits if random.once_in(2) => turn(random, bytes, 0..self.places[1].end),
            HeadBits => turn(random, bytes, place.start..place.start + FRAME),
            Cut => bytes.truncate(self.end(random)),
            Insert => {
                let start = self.end(random);
                bytes.splice(start..start, some(random));
            }
            Remove => {
                let start = self.end(random);
                let end = (start + 1 + random.index(8)).min(bytes.len());
                bytes.drain(start..end);
            }
            Splice => {
                let aligned = [place.start, other.places[at].start];
                let [end, start] = match random.once_in(2) {
                    true => aligned,
                    false => [self.end(random), other.end(random)],
                };
                bytes.truncate(end);
                bytes.extend(&other.bytes[start..]);
            }
            Swap => self.swap(random, bytes, 0),
            SwapPayloads => self.swap(random, bytes, FRAME),
            Drop => drop(bytes.drain(place)),
            Twice => {
                let again = bytes[place.clone()].to_vec();
                bytes.splice(place.end..place.end, again);
            }
            Blank => bytes[place.start + FRAME..place.end].fill([0, 0, 1, 255][random.index(4)]),
            Mark => mark(random, &mut bytes[place.start..place.start + 2]),
            Length => self.length(random, at, bytes),
            HeadLength => bytes[2] = [72, 73, 74, 75][random.index(4)],
            Head => {
                let (field, value) = head_field(random, &self.record);
                self.put(random, 0, FRAME + field, &value, bytes);
            }
            Library => {
                for (field, value) in library_fields(random, &self.record) {
                    self.put(random, 1, self.entry(0) + field, &value, bytes);
                }
            }
            BadPole => {
                if let Some((id, material)) = ruined(random, &self.record, sound::ODD) {
                    let entry = self.entry(id);
                    self.put(random, 1, entry, &material.write(), bytes);
                }
            }
            Unused => {
                let (at, place) = self.unused(random);
                let value = [1, 0x80, 255][random.index(3)];
                self.put(random, at, place, &[value], bytes);
            }
            Nan => {
                let (at, place) = self.double(random);
                let value = nan(random);
                self.put(random, at, place, &value, bytes);
            }
            Number => {
                let (at, place) = self.double(random);
                let value = random.odd().to_bits().to_le_bytes();
                self.put(random, at, place, &value, bytes);
            }
            Trailing if random.once_in(3) => {
                bytes.extend(&other.bytes[..1 + random.index(200)]);
            }
            Trailing => bytes.extend(some(random)),
            AnyBytes => {
                let most = 1 << random.below(12);
                *bytes = any(random, 0, most);
            }
        }
    }

    /// A value at a place of a record. Half of the time something is wrong after the record too, so
    /// that a fault in it that is passed over gives another number.
    fn put(
        &self,
        random: &mut Random,
        record: usize,
        at: usize,
        value: &[u8],
        bytes: &mut Vec<u8>,
    ) {
        let end = self.places[record].end;
        if at + value.len() <= bytes.len() {
            bytes[at..at + value.len()].copy_from_slice(value);
        }
        match random.below(4) {
            0 => bytes.truncate(end + random.index(FRAME)),
            1 if end + 2 <= bytes.len() => mark(random, &mut bytes[end..end + 2]),
            _ => {}
        }
    }

    /// Where a material begins in ML.
    pub fn entry(&self, id: usize) -> usize {
        self.places[1].start + FRAME + MATERIAL * id
    }

    /// Where ML ends, and CI begins.
    pub fn end_of_library(&self) -> usize {
        self.places[1].end
    }

    /// A place to cut at: anywhere, or by the end of a record.
    fn end(&self, random: &mut Random) -> usize {
        let place = &self.places[random.index(MARKS.len())];
        match random.below(4) {
            0 => random.index(self.bytes.len()),
            1 => place.start,
            2 => place.start + random.index(FRAME + 3),
            _ => place.end - 1 - random.index(3),
        }
    }

    /// Two records, or their payloads alone, each at the other's place.
    fn swap(&self, random: &mut Random, bytes: &mut Vec<u8>, from: usize) {
        let first = random.index(MARKS.len() - 1);
        let second = match random.once_in(2) {
            true => first + 1,
            false => first + 1 + random.index(MARKS.len() - 1 - first),
        };
        let [a, b] = [first, second].map(|at| self.places[at].start + from..self.places[at].end);
        let [one, two] = [a.clone(), b.clone()].map(|place| bytes[place].to_vec());
        bytes.splice(b, one);
        bytes.splice(a, two);
    }

    /// Another payload length before a record.
    fn length(&self, random: &mut Random, at: usize, bytes: &mut [u8]) {
        let place = &self.places[at];
        let length = (place.len() - FRAME) as u32;
        let another = self.places[random.index(MARKS.len())].len() - FRAME;
        let lengths = [
            0,
            length.wrapping_sub(1),
            length + 1,
            length + 8,
            length ^ 1 << random.below(32),
            another as u32,
            u32::MAX,
        ];
        let length = lengths[random.index(lengths.len())];
        bytes[place.start + 2..place.start + FRAME].copy_from_slice(&length.to_le_bytes());
    }

    /// In which record a double is, and its place.
    fn double(&self, random: &mut Random) -> (usize, usize) {
        let at = [0, 1, 3, 4, 5, 6, 7, 8, 9, 10][random.index(10)];
        let start = self.places[at].start + FRAME;
        let within = match at {
            0 => DOUBLES[random.index(DOUBLES.len())],
            1 => {
                let m = random.index(self.record.materials.len());
                let numbers = 3 + 3 * self.record.materials[m].poles.len();
                MATERIAL * m
                    + match random.index(numbers) {
                        i @ 0..3 => 8 * i,
                        i => 26 + 25 * (i / 3 - 1) + 8 * (i % 3),
                    }
            }
            _ => 8 * random.index((self.places[at].len() - FRAME) / 8),
        };
        (at, start + within)
    }

    /// In which record a zero must stand, by document 01's words on the save, and its place.
    fn unused(&self, random: &mut Random) -> (usize, usize) {
        if self.record.region.kind == 0 && random.once_in(4) {
            return (0, FRAME + 17 + random.index(12));
        }
        let mut places = Vec::new();
        for (m, material) in self.record.materials.iter().enumerate() {
            let entry = self.entry(m);
            for place in 0..PLACES {
                let start = entry + 25 + 25 * place;
                match material.poles.get(place) {
                    None => places.extend(start..start + 25),
                    Some(pole) if pole.tag != 1 => places.extend(start + 17..start + 25),
                    Some(_) => {}
                }
            }
        }
        (1, places[random.index(places.len())])
    }
}

/// Fewer than `most` bytes, and at least so many.
fn any(random: &mut Random, least: usize, most: usize) -> Vec<u8> {
    let length = least + random.index(most - least);
    (0..length).map(|_| random.bits() as u8).collect()
}

/// A few bytes, sometimes zeros.
fn some(random: &mut Random) -> Vec<u8> {
    let mut bytes = any(random, 1, 9);
    if random.once_in(3) {
        bytes.fill(0);
    }
    bytes
}

fn turn(random: &mut Random, bytes: &mut [u8], places: Range<usize>) {
    for _ in 0..1 + random.below(3) {
        let at = places.start + random.index(places.len());
        bytes[at] ^= 1 << random.below(8);
    }
}

fn mark(random: &mut Random, mark: &mut [u8]) {
    match random.below(4) {
        0 => mark.make_ascii_lowercase(),
        1 => mark.reverse(),
        2 => mark.copy_from_slice(&MARKS[random.index(MARKS.len())]),
        _ => mark[random.index(2)] = random.bits() as u8,
    }
}
