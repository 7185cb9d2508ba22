//! Saves from before there were constants. Each is taken up with constants 0, and saved again it is a byte
//! longer; cut, lengthened or with another length of GH it is refused as document 02's S-7 has it.
//!
//! Those in the folder old/ were written by the library of that time.

use compare::difference::{first_difference, untouched};
use compare::engine::Study;
use compare::engine::block::{CONSTANTS, MATERIAL, NAN, Record};
use compare::judge::{self, BAD_MARK, BAD_RECORD, SHORT, TRAILING};
use compare::{Random, save, sound};
use std::fs;
use std::path::Path;

/// Where GH's payload ends in an old save, and where the six bytes before ML's do.
const END: usize = 79;
const NEXT: usize = 85;
/// Where delta_eps of material 1's first pole stands, and where ML ends with two materials.
const DELTA_EPS: usize = NEXT + MATERIAL + 26;
const TWO_MATERIALS: usize = NEXT + 2 * MATERIAL;

fn kept(name: &str) -> Vec<u8> {
    let folder = Path::new(env!("CARGO_MANIFEST_DIR")).join("old");
    let file = folder.join(format!("{name}.save"));
    fs::read(&file).unwrap_or_else(|e| panic!("{}: {e}", file.display()))
}

/// The kept ones that are taken up. The third is so with a number in the place of the NaN in its pole: document 02's S-2.
fn all_kept() -> [Vec<u8>; 3] {
    let mut mended = kept("nan");
    let number = &mut mended[DELTA_EPS..DELTA_EPS + 8];
    assert_eq!(number, NAN.to_le_bytes());
    number.copy_from_slice(&1.5_f64.to_le_bytes());
    [kept("small"), kept("poles"), mended]
}

/// A save with another length of GH.
fn with_length(bytes: &[u8], length: u32) -> Vec<u8> {
    [&bytes[..2], &length.to_le_bytes(), &bytes[6..]].concat()
}

/// Bytes that the engine and the second reading refuse with this number, and nothing is written.
fn refused(bytes: &[u8], lent: &Study, number: u32) {
    let (mut after, length) = (lent.clone(), bytes.len());
    assert_eq!(after.rewind(bytes), number, "{length} bytes");
    assert!(untouched(lent, &after), "{length} bytes, and written");
    assert_eq!(save::read(bytes).err(), Some(number), "{length} bytes");
}

/// Any bits, with room for the save's study.
fn noise(random: &mut Random, old: &[u8]) -> (Study, Record) {
    let record = save::read(old).unwrap().record().unwrap();
    let noise = sound::noise(random, record.sizes, record.pole_slots.into());
    (noise, record)
}

/// A study that is without a fault by either constants; its own are 0.
fn by_either(random: &mut Random, sizes: [usize; 3]) -> Study {
    loop {
        let mut study = sound::study(random, sizes);
        let faults = [1, 0].map(|constants| {
            study.put_constants(constants);
            judge::fault(&study.record().unwrap())
        });
        if faults == [0; 2] {
            return study;
        }
    }
}

/// The old save taken up, and saved again: its bytes with the length field 4A 00 00 00 and a 00 at 79.
fn taken_up(random: &mut Random, old: &[u8]) {
    let (mut study, record) = noise(random, old);
    assert_eq!(study.rewind(old), 0);
    assert_eq!(study.block[CONSTANTS], 0);
    assert_eq!(record.constants, 0);
    assert_eq!(first_difference(&save::read(old).unwrap(), &study), None);
    let new = [&old[..2], &[0x4A, 0, 0, 0], &old[6..END], &[0], &old[END..]].concat();
    let again = study.saved(new.len());
    assert!(again.refusal == 0 && again.room == new, "other bytes");
    assert!(save::write(&study) == new && save::old(&new) == old);
}

/// Every proper front is cut short, and a byte more is one too many.
fn cut(random: &mut Random, old: &[u8]) {
    let (noise, _) = noise(random, old);
    for end in 0..old.len() {
        refused(&old[..end], &noise, SHORT);
    }
    for more in [0, b'G', 255] {
        refused(&[old, &[more]].concat(), &noise, TRAILING);
    }
}

/// Other lengths of GH: they are seen as soon as the six bytes before it are there. By 74 the payload goes on
/// to the M of ML, which names no constants.
fn other_lengths(random: &mut Random, old: &[u8]) {
    let (noise, _) = noise(random, old);
    for length in [0, 72, 75, 73 << 8, 73 | 1 << 8, 73 | 1 << 24, u32::MAX] {
        let bytes = with_length(old, length);
        refused(&bytes, &noise, BAD_RECORD);
        refused(&bytes[..6], &noise, BAD_RECORD);
        refused(&bytes[..5], &noise, SHORT);
    }
    let longer = with_length(old, 74);
    refused(&longer, &noise, BAD_RECORD);
    refused(&longer[..END + 1], &noise, BAD_RECORD);
    refused(&longer[..END], &noise, SHORT);
}

/// What the kept ones are. That they are still the same bytes is seen by their names in host/command/tests/standing.
#[test]
fn the_kept_saves() {
    let [small, poles, nan] = all_kept().map(|old| {
        assert!(save::is_old(&old));
        let study = save::read(&old).unwrap();
        (old.len(), study.record().unwrap(), study)
    });
    assert_eq!([small.0, poles.0, nan.0], [1_388, 30_162, 7_509]);
    assert_eq!((small.1.sizes, small.1.pole_slots), ([1; 3], 0));
    let mut opened = Study::lent([1; 3], 0);
    assert_eq!(opened.open([1; 3], 0, 0, small.1.spacings), 0);
    assert_eq!(first_difference(&opened, &small.2), None);

    let record = poles.1;
    assert!(record.built_count > 0 && record.steps > 0);
    assert!(record.active.contains(&true) && record.region.kind != 0);
    assert!(record.materials.iter().any(|m| m.pole_count > 0));
    assert!(poles.2.poles.iter().any(|x| *x != 0.0));

    let stores = nan.2.stores();
    assert!(stores.iter().any(|(_, s)| s.iter().any(|x| x.is_nan())));
}

#[test]
fn kept_saves_are_taken_up() {
    let mut random = Random::new(2019);
    for old in all_kept() {
        taken_up(&mut random, &old);
        cut(&mut random, &old);
        other_lengths(&mut random, &old);
    }
}

/// As it was written, the third has a Debye pole whose a3 is NaN: it is refused once ML is whole, whatever comes behind.
#[test]
fn a_kept_save_whose_pole_cannot_be_stepped() {
    let mut random = Random::new(2026);
    let [.., mended] = all_kept();
    let (noise, record) = noise(&mut random, &mended);
    assert_eq!(
        (record.material_count, record.materials[1].poles[0].tag),
        (2, 3)
    );
    let old = kept("nan");
    for end in 0..TWO_MATERIALS {
        refused(&old[..end], &noise, SHORT);
    }
    for end in TWO_MATERIALS..=old.len() {
        refused(&old[..end], &noise, BAD_RECORD);
    }
    refused(&[&old[..], &[0]].concat(), &noise, BAD_RECORD);
    let [with, without] = [old, mended].map(|mut bytes| {
        bytes[TWO_MATERIALS] ^= 1;
        bytes
    });
    refused(&with, &noise, BAD_RECORD);
    refused(&without, &noise, BAD_MARK);
}

/// Old saves of any study are taken up.
#[test]
fn any_old_save_is_taken_up() {
    let mut random = Random::new(2018);
    for turn in 0..200 {
        let sizes = sound::small(&mut random);
        let study = by_either(&mut random, sizes);
        let old = save::old(&save::write(&study));
        taken_up(&mut random, &old);
        other_lengths(&mut random, &old);
        if turn == 0 {
            cut(&mut random, &old);
        }
    }
}

/// With 73 as its length GH ends before the constants, and the next mark is that byte and an M.
#[test]
fn a_new_save_with_the_old_length() {
    let mut random = Random::new(1960);
    for constants in [0, 1] {
        let mut study = sound::by_hand(&mut random, [2, 1, 2]);
        study.put_constants(constants);
        let new = with_length(&save::write(&study), 73);
        refused(&new, &study, BAD_MARK);
        refused(&new[..NEXT], &study, BAD_MARK);
        refused(&new[..NEXT - 1], &study, SHORT);
    }
}

/// Each value of the new byte: 0 and 1 are constants, and any other is refused as soon as GH is whole.
#[test]
fn every_value_of_the_constants() {
    let mut random = Random::new(1948);
    let study = by_either(&mut random, [1, 2, 1]);
    let mut bytes = save::write(&study);
    for value in 0..=255 {
        bytes[END] = value;
        if value > 1 {
            refused(&bytes, &study, BAD_RECORD);
            refused(&bytes[..END + 1], &study, BAD_RECORD);
            continue;
        }
        let mut after = study.clone();
        assert_eq!(after.rewind(&bytes), 0);
        assert_eq!(after.block[CONSTANTS], value);
        assert!(after.saved(bytes.len()).room == bytes, "saved again");
    }
}
