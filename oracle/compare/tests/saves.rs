//! Round trips: a study saved is what the second reading writes, and rewound it is the study again.
//!
//! CICHOWIEJ_ROUND_TRIPS sets the number of random studies.

use compare::choose::Chooser;
use compare::difference::{first_difference, untouched};
use compare::engine::{BEFORE, Study};
use compare::judge::{NO_ROOM, SHORT, TRAILING};
use compare::save::{self, FRAME};
use compare::{Random, complaint, report, sound, variable};

const STUDIES: u64 = 300;

/// The save with its length, into room of that length, of fewer bytes and of more.
fn saved(random: &mut Random, study: &Study) -> Vec<u8> {
    let bytes = save::write(study);
    let length = bytes.len();
    assert_eq!(length, save::length(&study.record().unwrap()));
    for places in 0..3 {
        let mut room = vec![7; places];
        assert_eq!(study.save_length(&mut room), 0);
        assert_eq!(room, [length, 7, 7][..places]);
    }
    let whole = study.saved(length);
    assert!(whole.refusal == 0 && whole.room == bytes, "other bytes");
    for room in [length - 1, random.index(length), 0] {
        let answer = study.saved(room);
        assert_eq!(answer.refusal, NO_ROOM);
        assert!(
            answer.room.iter().all(|b| *b == BEFORE),
            "no room, and written"
        );
    }
    let more = length + 1 + random.index(100);
    let answer = study.saved(more);
    assert_eq!(answer.refusal, 0);
    let (written, beyond) = answer.room.split_at(length);
    assert!(written == bytes, "other bytes in more room");
    assert!(
        beyond.iter().all(|b| *b == BEFORE),
        "written beyond the length"
    );
    bytes
}

/// A study saved and rewound into noise.
fn round_trip(random: &mut Random, study: &Study) -> Vec<u8> {
    let before = study.clone();
    let bytes = saved(random, study);
    assert!(untouched(&before, study), "written by a save");
    let record = study.record().unwrap();
    let mut noise = sound::noise(random, record.sizes, record.pole_slots.into());
    assert_eq!(noise.rewind(&bytes), 0);
    assert_eq!(first_difference(study, &noise), None);
    assert!(noise.saved(bytes.len()).room == bytes, "saved again");
    bytes
}

/// Refused with this number, and nothing is written.
fn refused(bytes: &[u8], lent: &Study, number: u32) {
    let mut after = lent.clone();
    assert_eq!(after.rewind(bytes), number, "{} bytes", bytes.len());
    assert!(
        untouched(lent, &after),
        "{} bytes, and written",
        bytes.len()
    );
}

/// Cut short or longer than it is.
fn cut(random: &mut Random, study: &Study, bytes: &[u8]) {
    let record = study.record().unwrap();
    let noise = sound::noise(random, record.sizes, record.pole_slots.into());
    let mut ends = vec![
        0,
        bytes.len() - 1,
        random.index(bytes.len()),
        random.index(bytes.len()),
    ];
    let mut start = 0;
    for payload in save::payloads(&record) {
        let near = [start, start + random.index(FRAME), start + FRAME];
        ends.extend(near);
        start += FRAME + payload;
    }
    for end in ends {
        refused(&bytes[..end], &noise, SHORT);
    }
    for more in [1, 2 + random.index(20)] {
        let beyond = (0..more).map(|_| random.bits() as u8);
        let longer: Vec<u8> = bytes.iter().copied().chain(beyond).collect();
        refused(&longer, &noise, TRAILING);
    }
}

/// Studies as the comparison with the original has them, and small ones of every kind.
#[test]
fn round_trips() {
    let studies = variable("CICHOWIEJ_ROUND_TRIPS").unwrap_or(STUDIES);
    let (mut largest, mut nans, mut new) = (0, 0, 0);
    for seed in 0..studies {
        let mut random = Random::new(seed);
        let said = complaint(|| {
            let study = match seed % 3 {
                0 => {
                    let chooser = Chooser::new(&mut random);
                    sound::grown(&mut random, &chooser)
                }
                _ => {
                    let sizes = sound::small(&mut random);
                    sound::study(&mut random, sizes)
                }
            };
            let bytes = round_trip(&mut random, &study);
            cut(&mut random, &study, &bytes);
            largest = largest.max(bytes.len());
            new += u64::from(study.record().unwrap().constants);
            let numbers = study.stores().into_iter().flat_map(|(_, store)| store);
            nans += numbers.filter(|x| x.is_nan()).count();
        });
        if let Some(said) = said {
            panic!("study of seed {seed}: {said}");
        }
    }
    report(&format!(
        "round trips: {studies} studies, {new} with the constants of 2019, the largest save of {largest} bytes, {nans} NaNs"
    ));
    assert!(nans > 0 && new > 0 && new < studies);
}

/// A fresh study of one cell, and one of two cells with everything in it: every proper prefix is cut short.
#[test]
fn every_prefix() {
    let mut fresh = Study::lent([1, 1, 1], 0);
    assert_eq!(fresh.open([1, 1, 1], 0, 0, [1.0; 4]), 0);
    assert_eq!(save::write(&fresh).len(), 1_389);
    let mut random = Random::new(2022);
    let full = loop {
        let study = sound::by_hand(&mut random, [1, 2, 1]);
        let record = study.record().unwrap();
        if record.material_count == 2 && record.region.kind != 0 && record.pole_slots == 1 {
            break study;
        }
    };
    for study in [fresh, full] {
        let bytes = round_trip(&mut random, &study);
        let record = study.record().unwrap();
        let noise = sound::noise(&mut random, record.sizes, record.pole_slots.into());
        for end in 0..bytes.len() {
            refused(&bytes[..end], &noise, SHORT);
        }
        for byte in 0..=255 {
            refused(&[&bytes[..], &[byte]].concat(), &noise, TRAILING);
        }
    }
}
