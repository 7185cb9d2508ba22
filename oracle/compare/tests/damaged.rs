//! Damaged saves: the engine and the second reading name the same fault. A save that is refused leaves
//! block and stores as they were, bit for bit; one that is accepted is what its study writes, or, where it is an old
//! one, writes with the constants put in.
//!
//! CICHOWIEJ_DAMAGED sets their number (`make compare-long`: a million).

use compare::damage::{DAMAGES, Damage, Sound};
use compare::difference::{first_difference, untouched};
use compare::engine::block::{MATERIAL, Material, Pole};
use compare::engine::{Study, block};
use compare::judge::{BAD_MARK, BAD_RECORD, BAD_STORE, SHORT, lengths, refusal};
use compare::poles::Poles;
use compare::{Random, call, report, save, sound, variable};
use std::collections::BTreeMap;
use std::fs;
use std::path::Path;

const DAMAGED: u64 = 5_000;
/// Damaged saves of one sound save.
const EACH: u64 = 40;
/// The answers that a rewind can give.
const ANSWERS: [u32; 6] = [0, 4, 13, 14, 15, 16];

/// How often each kind of damage got each answer, and of what kinds the sound saves were.
#[derive(Default)]
struct Tally {
    answers: BTreeMap<Damage, BTreeMap<u32, u64>>,
    kinds: BTreeMap<&'static str, u64>,
}

/// What a sound save can have in it.
fn kinds(save: &Sound) -> [(&'static str, bool); 18] {
    let record = &save.record;
    let study = save::read(&save.bytes).unwrap();
    let stores = study.stores();
    let some = |kind: fn(&f64) -> bool| stores.iter().any(|(_, store)| store.iter().any(kind));
    [
        ("old", save::is_old(&save.bytes)),
        ("constants of 2019", record.constants == 1),
        ("periodic", record.periodic.contains(&true)),
        ("conducting", record.periodic.contains(&false)),
        ("layer on", record.layer_on),
        ("active layer", record.active.contains(&true)),
        ("no region", record.region.kind == 0),
        ("slab", record.region.kind == 1),
        ("injector", record.region.kind == 2),
        ("box", record.region.kind == 3),
        ("no slots", record.pole_slots == 0),
        ("four slots", record.pole_slots == 4),
        ("built", record.built_count != 0),
        ("16 materials", record.material_count == 16),
        ("NaN", some(|x| x.is_nan())),
        ("infinity", some(|x| x.is_infinite())),
        ("subnormal", some(|x| x.is_subnormal())),
        ("-0.0", some(|x| *x == 0.0 && x.is_sign_negative())),
    ]
}

/// Noise to be rewound into; now and then with a block or a store of another length.
fn lent(random: &mut Random, noise: &Study) -> Study {
    let mut study = noise.clone();
    if !random.once_in(8) {
        return study;
    }
    let store = random.index(10);
    let right = match store {
        9 => block::LENGTH,
        store => length(noise, store),
    };
    let length = [0, right / 2, right - 1, right + 1][random.index(4)];
    match store {
        9 => study.block.resize(length, 7),
        8 => study.ids.resize(length, 7),
        store => study.stores_mut()[store].resize(length, 7.0),
    }
    study
}

fn length(study: &Study, store: usize) -> usize {
    let stores = study.stores();
    stores.get(store).map_or(study.ids.len(), |(_, s)| s.len())
}

/// A rewind to any bytes, beside the second reading; the number that both answer.
fn rewound(bytes: &[u8], lent: &Study) -> u32 {
    let due = refusal(lent, &call::Call::Rewind(call::Bytes(bytes.to_vec())));
    let mut after = lent.clone();
    assert_eq!(after.rewind(bytes), due, "refusal");
    if due != 0 {
        assert!(untouched(lent, &after), "refused as {due}, and written");
        return due;
    }
    let read = save::read(bytes).unwrap();
    assert_eq!(first_difference(&read, &after), None);
    let written = match save::is_old(bytes) {
        true => save::widened(bytes),
        false => bytes.to_vec(),
    };
    let again = after.saved(written.len());
    assert_eq!(again.refusal, 0, "saved again");
    assert!(again.room == written, "saved again, it has other bytes");
    0
}

/// The same, and where the two do not agree the bytes are kept.
fn tried(bytes: &[u8], lent: &Study, damage: Damage, turn: u64) -> u32 {
    let mut answer = 0;
    if let Some(said) = compare::complaint(|| answer = rewound(bytes, lent)) {
        let kept = Path::new(env!("CARGO_TARGET_TMPDIR")).join("damaged-save");
        fs::write(&kept, bytes).unwrap();
        let kept = kept.display();
        panic!("save {turn}, damaged by {damage:?}: {said}\nits bytes are in {kept}");
    }
    answer
}

#[test]
fn damaged_saves() {
    let count = variable("CICHOWIEJ_DAMAGED").unwrap_or(DAMAGED);
    let mut random = Random::new(2000);
    let mut tally = Tally::default();
    let first = sound::small(&mut random);
    let first = sound::study(&mut random, first);
    let mut other = Sound::any(&mut random, &first);
    for turn in 0..count.div_ceil(EACH) {
        let sizes = match random.once_in(3) {
            true => other.record.sizes,
            false => sound::small(&mut random),
        };
        let study = sound::study(&mut random, sizes);
        let save = Sound::any(&mut random, &study);
        for (kind, holds) in kinds(&save) {
            *tally.kinds.entry(kind).or_default() += u64::from(holds);
        }
        let noise = sound::noise(&mut random, sizes, save.record.pole_slots.into());
        for _ in 0..EACH {
            let damage = DAMAGES[random.index(DAMAGES.len())];
            let bytes = save.damaged(&mut random, damage, &other);
            let answer = tried(&bytes, &lent(&mut random, &noise), damage, turn);
            let answers = tally.answers.entry(damage).or_default();
            *answers.entry(answer).or_default() += 1;
        }
        other = save;
    }
    tally.told();
}

impl Tally {
    /// Every kind of damage was tried on saves of every kind, and every answer met.
    fn told(&self) {
        let mut met = BTreeMap::new();
        for (answer, n) in self.answers.values().flatten() {
            *met.entry(*answer).or_insert(0) += n;
        }
        let all: u64 = met.values().sum();
        report(&format!("damaged saves: {all}, answers {met:?}"));
        for (damage, answers) in &self.answers {
            report(&format!("  {damage:?} {answers:?}"));
        }
        report(&format!("  of sound ones {:?}", self.kinds));
        assert!(met.into_keys().eq(ANSWERS));
        assert_eq!(self.answers.len(), DAMAGES.len());
        let bad_pole = &self.answers[&Damage::BadPole];
        assert!(bad_pole[&BAD_RECORD] > bad_pole.values().sum::<u64>() / 2);
        assert!(self.kinds.values().all(|n| *n > 0));
    }
}

/// What is lent is looked at last: whatever is wrong with a save comes before it.
#[test]
fn what_is_lent_comes_last() {
    let mut random = Random::new(2007);
    for _ in 0..50 {
        let sizes = sound::small(&mut random);
        let study = sound::study(&mut random, sizes);
        let save = Sound::any(&mut random, &study);
        let slots = save.record.pole_slots.into();
        let noise = sound::noise(&mut random, sizes, slots);
        assert_eq!(rewound(&save.bytes, &noise), 0);
        for store in 0..9 {
            let mut short = noise.clone();
            let length = lengths(sizes, slots)[store] - 1;
            match store {
                8 => short.ids.truncate(length),
                store => short.stores_mut()[store].truncate(length),
            }
            assert_eq!(rewound(&save.bytes, &short), BAD_STORE);
            for damage in DAMAGES {
                let bytes = save.damaged(&mut random, damage, &save);
                let expected = save::read(&bytes).err().unwrap_or(BAD_STORE);
                assert_eq!(rewound(&bytes, &short), expected);
            }
        }
    }
}

/// A save with another material in the place of one, and then with something wrong behind ML too: CI has another mark, or
/// the bytes end there.
fn with_material(save: &Sound, id: usize, material: &Material) -> [Vec<u8>; 3] {
    let (entry, end) = (save.entry(id), save.end_of_library());
    let mut whole = save.bytes.clone();
    whole[entry..entry + MATERIAL].copy_from_slice(&material.write());
    let mut other_mark = whole.clone();
    other_mark[end] ^= 1;
    let cut = whole[..end].to_vec();
    [whole, other_mark, cut]
}

/// A pole that cannot be stepped is found where ML is: once ML is whole, and before anything behind it, or what is lent,
/// is looked at.
fn bad_pole(save: &Sound, (id, place): (usize, usize), pole: Pole, noise: &Study) {
    let sound = &save.record.materials[id];
    let mut material = sound.clone();
    material.poles[place] = pole;
    for bytes in with_material(save, id, &material) {
        let mut short = noise.clone();
        short.ids.pop();
        assert_eq!(rewound(&bytes, noise), BAD_RECORD);
        assert_eq!(rewound(&bytes, &short), BAD_RECORD);
        assert_eq!(rewound(&bytes[..save.end_of_library() - 1], noise), SHORT);
    }
    let answers = with_material(save, id, sound).map(|bytes| rewound(&bytes, noise));
    assert_eq!(answers, [0, BAD_MARK, SHORT]);
}

/// Every counted place of a save in turn, with a pole that cannot be stepped, and with one next to a pole that can.
#[test]
fn poles_that_cannot_be_stepped() {
    let mut random = Random::new(2029);
    let (mut places, mut old) = (0, 0);
    for _ in 0..60 {
        let sizes = sound::small(&mut random);
        let study = sound::by_hand(&mut random, sizes);
        let save = Sound::any(&mut random, &study);
        let noise = sound::noise(&mut random, sizes, save.record.pole_slots.into());
        let poles = Poles::of(&save.record, sound::ODD);
        for (id, material) in save.record.materials.iter().enumerate() {
            for place in 0..material.poles.len() {
                bad_pole(&save, (id, place), poles.bad(&mut random), &noise);
                let [last, beyond] = poles.edge(&mut random);
                bad_pole(&save, (id, place), beyond, &noise);
                let mut material = material.clone();
                material.poles[place] = last;
                let answers = with_material(&save, id, &material).map(|b| rewound(&b, &noise));
                assert_eq!(answers, [0, BAD_MARK, SHORT]);
                places += 1;
                old += u32::from(save::is_old(&save.bytes));
            }
        }
    }
    report(&format!(
        "saves with a pole that cannot be stepped: {places} places, {old} of them in saves with a GH of 73 bytes, each refused at ML"
    ));
    assert!(old > 0 && old < places);
}
