//! The save, read once more from document 01's words and from document 02's S-2 and S-7: a study written, and bytes
//! judged and read.

use crate::engine::Study;
use crate::engine::block::{self, HEAD, MATERIAL, NAN, Record, double};
use crate::judge::{self, BAD_MARK, BAD_RECORD, SHORT, TRAILING};

/// The marks of the records, in order.
pub const MARKS: [[u8; 2]; 11] = [
    *b"GH", *b"ML", *b"CI", *b"CM", *b"FE", *b"FH", *b"LE", *b"LH", *b"LT", *b"PP", *b"AX",
];
/// What stands before a payload: the mark, and the payload's length as a u32.
pub const FRAME: usize = 6;
/// GH's length in a save from before there were constants: their byte, the last, is not there, and they are 0.
pub const OLD_HEAD: usize = 73;

/// The save's length, by document 01's formula, which starts at 908 since S-7.
pub fn length(record: &Record) -> usize {
    let m = usize::from(record.material_count);
    let p = usize::from(record.pole_slots);
    let n = record.cells();
    let l: usize = record.sizes.iter().sum();
    908 + 125 * m + 196 * n + 48 * p * n + 48 * l + 16 * record.sizes[2]
}

/// The lengths of the payloads in order, as GH fixes them.
pub fn payloads(record: &Record) -> [usize; 11] {
    let slots = record.pole_slots.into();
    let [e, h, media, psi_e, psi_h, tables, poles, aux, ids] = judge::lengths(record.sizes, slots);
    let library = MATERIAL * usize::from(record.material_count);
    let stores = [media, e, h, psi_e, psi_h, tables, poles, aux].map(|n| 8 * n);
    let mut all = [HEAD, library, 4 * ids, 0, 0, 0, 0, 0, 0, 0, 0];
    all[3..].copy_from_slice(&stores);
    all
}

/// The bytes of a study whose block is a record.
pub fn write(study: &Study) -> Vec<u8> {
    let record = study.record().expect("a record");
    let library = record.materials.iter().flat_map(|m| m.write());
    let ids = study.ids.iter().flat_map(|id| id.to_le_bytes());
    let mut payloads = vec![
        record.write()[..HEAD].to_vec(),
        library.collect(),
        ids.collect(),
    ];
    let Study {
        e,
        h,
        media,
        psi_e,
        psi_h,
        tables,
        poles,
        aux,
        ..
    } = study;
    for store in [media, e, h, psi_e, psi_h, tables, poles, aux] {
        payloads.push(store.iter().flat_map(|x| double(*x)).collect());
    }
    let mut out = Vec::with_capacity(length(&record));
    for (mark, payload) in MARKS.iter().zip(payloads) {
        out.extend(mark);
        out.extend((payload.len() as u32).to_le_bytes());
        out.extend(payload);
    }
    out
}

/// A save of a study with constants 0 as it was written before there were constants.
pub fn old(bytes: &[u8]) -> Vec<u8> {
    let (head, rest) = bytes[FRAME..].split_at(OLD_HEAD);
    assert_eq!(rest[0], 0, "constants that no old save has");
    [&framed(OLD_HEAD), head, &rest[1..]].concat()
}

/// What the study of an old save writes.
pub fn widened(old: &[u8]) -> Vec<u8> {
    let (head, rest) = old[FRAME..].split_at(OLD_HEAD);
    [&framed(HEAD), head, &[0], rest].concat()
}

/// What stands before a GH of so many bytes.
fn framed(length: usize) -> [u8; FRAME] {
    let [a, b, c, d] = (length as u32).to_le_bytes();
    [b'G', b'H', a, b, c, d]
}

/// Whether the bytes begin as an old save does.
pub fn is_old(bytes: &[u8]) -> bool {
    bytes.starts_with(&framed(OLD_HEAD))
}

/// The study that a save holds, or the number of its first fault, 13 to 16.
pub fn read(bytes: &[u8]) -> Result<Study, u32> {
    let mut reader = Reader { left: bytes };
    let record = reader.record()?;
    let lengths = payloads(&record);
    let ids = reader.take(MARKS[2], lengths[2])?;
    let ids = ids
        .chunks(4)
        .map(|b| u32::from_le_bytes(b.try_into().unwrap()));
    let mut store = |at: usize| doubles(reader.take(MARKS[at], lengths[at])?);
    let study = Study {
        block: record.write(),
        ids: ids.collect(),
        media: store(3)?,
        e: store(4)?,
        h: store(5)?,
        psi_e: store(6)?,
        psi_h: store(7)?,
        tables: store(8)?,
        poles: store(9)?,
        aux: store(10)?,
    };
    match reader.left {
        [] => Ok(study),
        _ => Err(TRAILING),
    }
}

/// The bytes that are not read yet.
struct Reader<'a> {
    left: &'a [u8],
}

impl<'a> Reader<'a> {
    /// The payload of the next record.
    fn take(&mut self, mark: [u8; 2], length: usize) -> Result<&'a [u8], u32> {
        let (frame, rest) = self.left.split_at_checked(FRAME).ok_or(SHORT)?;
        if frame[..2] != mark {
            return Err(BAD_MARK);
        }
        if frame[2..] != (length as u32).to_le_bytes() {
            return Err(BAD_RECORD);
        }
        let (payload, rest) = rest.split_at_checked(length).ok_or(SHORT)?;
        self.left = rest;
        Ok(payload)
    }

    /// GH's payload, in an old save with the constants that it stands for.
    fn head(&mut self) -> Result<Vec<u8>, u32> {
        let length = if is_old(self.left) { OLD_HEAD } else { HEAD };
        let mut head = self.take(MARKS[0], length)?.to_vec();
        head.resize(HEAD, 0);
        Ok(head)
    }

    /// GH and ML. What 1 to 3 say of GH's own fields is judged before ML is looked at.
    fn record(&mut self) -> Result<Record, u32> {
        let head = block::saved_head(&self.head()?);
        let sound = head.filter(|record| judge::head_fault(record) == 0);
        let mut record = sound.ok_or(BAD_RECORD)?;
        let library = self.take(MARKS[1], payloads(&record)[1])?;
        for entry in library.chunks(MATERIAL) {
            let material = block::saved_material(entry).ok_or(BAD_RECORD)?;
            record.materials.push(material);
        }
        match judge::fault(&record) {
            0 => Ok(record),
            _ => Err(BAD_RECORD),
        }
    }
}

/// Numbers of which no NaN is another than the one.
fn doubles(bytes: &[u8]) -> Result<Vec<f64>, u32> {
    let numbers = bytes
        .chunks(8)
        .map(|b| f64::from_le_bytes(b.try_into().unwrap()));
    let fine = |x: f64| !x.is_nan() || x.to_bits() == NAN;
    numbers
        .map(|x| if fine(x) { Ok(x) } else { Err(BAD_RECORD) })
        .collect()
}
