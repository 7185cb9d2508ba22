//! What each call turns down, by document 01, and that a refused call changes nothing.

mod poles;
mod standing;

use compare::call::{Call, Numbers};
use compare::difference::{first_difference, untouched};
use compare::engine::block::{self, Record};
use compare::engine::{BEFORE, Put, Study};
use compare::judge::*;
use compare::{EDGES, Random, SIGN, report, save};
use standing::{CONSTANTS, SIZES, SLOTS, SPACINGS, calls, material, rewinding, study, tables};

/// The calls that do not judge their block come first among all calls.
const NOT_JUDGED: usize = 2;

/// Hands a call to a copy of the study: the refusal is the one that is due, and then nothing has
/// changed and the further answer is 0.
fn due(study: &Study, call: &Call, refusal: u32) {
    let mut after = study.clone();
    let answer = after.apply(call);
    assert_eq!(answer.refusal, refusal, "{call:?}");
    if refusal != 0 {
        assert!(untouched(study, &after), "{call:?} refused, and written");
        assert_eq!(answer.further.to_bits(), 0, "{call:?}");
        let room = answer.room.iter().all(|b| *b == BEFORE);
        assert!(room, "{call:?} refused, and its room written");
    } else {
        assert!(after.record().is_some(), "{call:?} left no record");
        let written = call.written();
        let kept = |b: &[u8]| [&b[..written.start], &b[written.end..]].concat();
        let same = kept(&study.block) == kept(&after.block);
        assert!(same, "{call:?} wrote to the block beyond {written:?}");
    }
}

fn judged(study: &Study, call: &Call) -> u32 {
    let number = refusal(study, call);
    due(study, call, number);
    number
}

#[test]
fn every_call_is_accepted() {
    for call in calls() {
        due(&study(), &call, 0);
    }
}

#[test]
fn stores_of_another_length() {
    for call in calls() {
        for store in 0..9 {
            let right = lengths(SIZES, SLOTS)[store];
            for length in [0, right - 1, right + 1] {
                let mut study = study();
                if store == 8 {
                    study.ids.resize(length, 0);
                } else {
                    study.stores_mut()[store].resize(length, 1.5);
                }
                let wrong = lent(&call).contains(&store);
                due(&study, &call, if wrong { BAD_STORE } else { 0 });
            }
        }
    }
    for length in [0, 1, 53, 55] {
        let given = Numbers(vec![0.5; length]);
        let call = Call::Cpml {
            axes: [true; 3],
            thickness: 1,
            given,
        };
        due(&study(), &call, BAD_STORE);
    }
}

/// Such a block is no record; to opening and rewind it is one more store.
#[test]
fn blocks_of_another_length() {
    for (at, call) in calls().iter().enumerate() {
        for length in [0, 1, block::HEAD, block::LENGTH - 1, block::LENGTH + 1] {
            let mut study = study();
            study.block.resize(length, 0);
            let judged = at >= NOT_JUDGED;
            due(&study, call, if judged { BAD_STUDY } else { BAD_STORE });
        }
    }
}

/// Every byte of the block in turn, with a bit turned or any value; then a call.
#[test]
fn blocks_with_a_byte_changed() {
    let (standing, calls) = (study(), calls());
    let mut random = Random::new(1975);
    let (mut tried, mut refused) = (0, 0);
    for at in 0..block::LENGTH {
        for turn in 0..12 {
            let mut study = standing.clone();
            study.block[at] = match turn {
                0..8 => study.block[at] ^ 1 << turn,
                _ => random.bits() as u8,
            };
            let call = &calls[random.index(calls.len())];
            refused += u32::from(judged(&study, call) != 0);
            tried += 1;
        }
    }
    report(&format!(
        "blocks with a byte changed: {tried} calls, {refused} refused, each as it is due"
    ));
    assert!(refused > tried / 2 && refused < tried);
}

/// The places of a block's doubles.
fn doubles() -> Vec<usize> {
    let mut places = block::DOUBLES.to_vec();
    for m in 0..block::MATERIALS {
        let entry = block::HEAD + block::MATERIAL * m;
        places.extend([0, 8, 16].map(|at| entry + at));
        for place in 0..block::PLACES {
            places.extend([0, 8, 16].map(|at| entry + 26 + 25 * place + at));
        }
    }
    places
}

/// Every double of the block in turn, at the edges of the format.
#[test]
fn blocks_with_an_odd_double() {
    let (standing, calls) = (study(), calls());
    let mut random = Random::new(1981);
    let mut accepted = 0;
    for at in doubles() {
        for bits in EDGES.into_iter().flat_map(|b| [b, b | SIGN]) {
            let call = &calls[NOT_JUDGED + random.index(calls.len() - NOT_JUDGED)];
            let study = with_double(&standing, at, bits);
            let number = judged(&study, call);
            if f64::from_bits(bits).is_nan() && bits != block::NAN {
                as_the_nan(&study, &with_double(&standing, at, block::NAN), call);
                accepted += u32::from(number == 0);
            }
        }
    }
    report(&format!(
        "blocks with another NaN: {accepted} calls accepted"
    ));
    assert!(accepted > 0);
}

fn with_double(standing: &Study, at: usize, bits: u64) -> Study {
    let mut study = standing.clone();
    study.block[at..at + 8].copy_from_slice(&bits.to_le_bytes());
    study
}

/// A call on a block with another NaN comes to what it comes to with the one.
fn as_the_nan(odd: &Study, one: &Study, call: &Call) {
    let (mut odd, mut one) = (odd.clone(), one.clone());
    assert!(odd.apply(call).agrees(&one.apply(call)), "{call:?}");
    if one.record().is_some() {
        assert_eq!(first_difference(&one, &odd), None, "{call:?}");
    }
}

/// A record with some of its fields out of range, or at the end of it.
fn broken(record: &mut Record, random: &mut Random) {
    let small = [0, 1, 2, 3, 4, 5, 15, 16, 17, 255];
    let pick = |random: &mut Random| small[random.index(small.len())];
    for _ in 0..1 + random.below(3) {
        let axis = random.index(3);
        match random.below(14) {
            0 => record.sizes[axis] = [0, 1, 512, 513, 65535][random.index(5)],
            1 => record.spacings[random.index(4)] = random.odd(),
            2 => record.pole_slots = pick(random),
            3 => record.built_count = pick(random),
            4 => record.layer_on = !record.layer_on,
            5 => record.active[axis] = !record.active[axis],
            6 => record.region.corners[random.index(6)] = random.index(6),
            7 => record.region.kind = pick(random),
            8 => record.steps = u32::MAX,
            9 => record.material_count = pick(random),
            10 => record.materials[random.index(4)] = material(&[3, 2, 1][..random.index(4)]),
            11 => record.constants = pick(random),
            12 => {
                let bad = poles::bad();
                let pole = bad[random.index(bad.len())].clone();
                record.materials[random.index(4)] = poles::of(&[pole]);
            }
            _ => record.time = random.odd(),
        }
    }
}

#[test]
fn records_that_contradict_themselves() {
    let (standing, calls) = (study(), calls());
    let record = standing.record().unwrap();
    let mut random = Random::new(1994);
    let mut counts = [0; 20];
    for _ in 0..20_000 {
        let mut study = standing.clone();
        let mut record = record.clone();
        broken(&mut record, &mut random);
        study.block = record.write();
        counts[judged(&study, &calls[random.index(calls.len())]) as usize] += 1;
    }
    report(&format!("contradicting records: answers {counts:?}"));
    assert!([0, 1, 2, 3, 4, 8, 11].iter().all(|n| counts[*n] > 0));
}

/// Whole blocks of any bytes; nearly all have a flag that is none.
#[test]
fn blocks_of_any_bytes() {
    let mut random = Random::new(2000);
    for call in calls() {
        for _ in 0..100 {
            let mut study = study();
            study.block.fill_with(|| random.bits() as u8);
            judged(&study, &call);
        }
    }
}

fn open(sizes: [usize; 3], pole_slots: usize, spacings: [f64; 4]) -> Call {
    opening(sizes, pole_slots, CONSTANTS, spacings)
}

fn opening(sizes: [usize; 3], pole_slots: usize, constants: usize, spacings: [f64; 4]) -> Call {
    Call::Open {
        sizes,
        pole_slots,
        constants,
        spacings,
    }
}

#[test]
fn openings() {
    let standing = study();
    for axis in 0..3 {
        for n in [0, 513, 1 << 16, 1 << 32, 1 << 63, usize::MAX] {
            let mut sizes = SIZES;
            sizes[axis] = n;
            due(&standing, &open(sizes, SLOTS, SPACINGS), BAD_SIZE);
            due(&standing, &open(sizes, 5, [0.0; 4]), BAD_SIZE);
        }
    }
    due(&standing, &open([512, 512, 5], SLOTS, SPACINGS), BAD_SIZE);
    due(&standing, &open([512, 512, 4], SLOTS, SPACINGS), BAD_STORE);
    let odd = [0.0, -0.0, -1.0, f64::INFINITY, f64::NEG_INFINITY, f64::NAN];
    for (at, x) in (0..4).flat_map(|at| odd.map(|x| (at, x))) {
        let mut spacings = SPACINGS;
        spacings[at] = x;
        due(&standing, &open(SIZES, SLOTS, spacings), BAD_SPACING);
        due(&standing, &open(SIZES, 5, spacings), BAD_SPACING);
    }
    for slots in [5, 256, 257, usize::MAX] {
        due(&standing, &open(SIZES, slots, SPACINGS), BAD_STUDY);
    }
    due(&standing, &open(SIZES, SLOTS + 1, SPACINGS), BAD_STORE);
    let mut blank = standing;
    blank.block.fill(0xFF);
    due(&blank, &standing::opening(), 0);
}

/// Constants are judged where the pole slots are: after sizes and spacings, and before what is lent.
#[test]
fn openings_with_other_constants() {
    let standing = study();
    let mut short = study();
    short.aux.pop();
    for constants in [0, 1] {
        due(&standing, &opening(SIZES, SLOTS, constants, SPACINGS), 0);
    }
    for constants in [2, 3, 255, 256, 257, 1 << 32, 1 << 63, usize::MAX] {
        let with = |sizes, spacings| opening(sizes, SLOTS, constants, spacings);
        for study in [&standing, &short] {
            due(study, &with(SIZES, SPACINGS), BAD_STUDY);
            due(study, &with(SIZES, [0.0, 1.0, 1.0, 1.0]), BAD_SPACING);
            due(study, &with([0, 3, 4], [0.0, 1.0, 1.0, 1.0]), BAD_SIZE);
            due(study, &with([0, 3, 4], SPACINGS), BAD_SIZE);
        }
    }
}

/// A record that contradicts itself is 3 in its place: after 1 and 2, and before what is lent. Opening and rewind judge no
/// standing record.
fn bad_in_its_place(study: &Study, calls: &[Call]) {
    let (free, judging) = calls.split_at(NOT_JUDGED);
    let mut flat = study.clone();
    flat.block[..2].fill(0);
    let timeless = with_double(study, block::DOUBLES[3], 0);
    let mut short = study.clone();
    short.ids.pop();
    for store in short.stores_mut() {
        store.pop();
    }
    for call in free {
        due(study, call, 0);
    }
    for call in judging {
        due(study, call, BAD_STUDY);
        due(&short, call, BAD_STUDY);
        due(&flat, call, BAD_SIZE);
        due(&timeless, call, BAD_SPACING);
    }
}

/// A block with constants that are none is a record all the same.
#[test]
fn blocks_with_other_constants() {
    let calls = calls();
    for constants in 2..=255 {
        let mut study = study();
        study.put_constants(constants);
        bad_in_its_place(&study, &calls);
    }
}

/// What is handed to opening comes first, and then the lengths of block and stores.
#[test]
fn openings_into_a_block_of_another_length() {
    for length in [0, block::LENGTH - 1, block::LENGTH + 1] {
        let mut short = study();
        short.block.resize(length, 0);
        due(&short, &open([0, 3, 4], 5, [0.0; 4]), BAD_SIZE);
        due(&short, &open(SIZES, 5, [0.0; 4]), BAD_SPACING);
        due(&short, &open(SIZES, 5, SPACINGS), BAD_STUDY);
        due(&short, &standing::opening(), BAD_STORE);
    }
}

/// A rewind judges neither the block's bytes nor a record in it, and gives what the save holds.
#[test]
fn a_rewind_over_any_block() {
    let call = rewinding();
    let mut after = study();
    due(&after, &call, 0);
    assert_eq!(after.apply(&call).refusal, 0);
    for byte in [0, 1, 0xFF] {
        let mut blank = study();
        blank.block.fill(byte);
        due(&blank, &call, 0);
        assert_eq!(blank.apply(&call).refusal, 0);
        assert_eq!(first_difference(&after, &blank), None);
    }
}

#[test]
fn refusals_of_single_calls() {
    let mut full = study();
    let [few, many] = [material(&[3]), material(&[1, 2, 3])].map(Call::AddMaterial);
    due(&full, &many, TOO_MANY_POLES);
    while full.record().unwrap().material_count < 16 {
        assert_eq!(full.apply(&few).refusal, 0);
    }
    due(&full, &few, FULL);
    due(&full, &many, TOO_MANY_POLES);

    let standing = study();
    let nowhere = [0; 6];
    for id in [4, 5, 16, u32::MAX] {
        let (cells, what) = (nowhere, Put::Library(id));
        due(&standing, &Call::PutBox { cells, what }, NO_SUCH_MATERIAL);
        due(
            &standing,
            &Call::AssignHalfspace { id, k0: 9 },
            NO_SUCH_MATERIAL,
        );
    }
    for order in [9, 10, 1 << 32, usize::MAX] {
        let (thickness, sigma_max) = (0, 1.0);
        let call = Call::Lossy {
            thickness,
            order,
            sigma_max,
        };
        due(&standing, &call, BAD_ORDER);
    }
    for k in [4, 5, 1 << 32, usize::MAX] {
        due(&standing, &Call::PlaneReading(k), NO_SUCH_PLANE);
        due(&standing, &Call::Injector { k0: k }, BAD_REGION);
        due(&standing, &Call::Slab { k0: 0, k1: k }, BAD_REGION);
        due(&standing, &Call::BoxRegion([0, 0, 0, 0, 0, k]), BAD_REGION);
    }
    due(&standing, &Call::Slab { k0: 2, k1: 1 }, BAD_REGION);
    due(&standing, &Call::BoxRegion([1, 0, 0, 0, 0, 0]), BAD_REGION);
    due(&standing, &Call::BoxRegion([0, 2, 0, 0, 0, 0]), BAD_REGION);
    due(&standing, &Call::BoxRegion([0, 0, 2, 1, 0, 0]), BAD_REGION);
    due(&standing, &Call::BoxRegion([0, 0, 0, 3, 0, 0]), BAD_REGION);

    let length = save::length(&standing.record().unwrap());
    for room in [0, 1, length / 2, length - 1] {
        due(&standing, &Call::Save(room), NO_ROOM);
    }
    let mut short = standing;
    short.aux.pop();
    due(&short, &Call::Save(0), BAD_STORE);
}

/// A material that was added after dispersion was built comes before a spent clock.
#[test]
fn refusals_of_a_step() {
    let steps = [Call::Step(1.0), Call::Run(vec![1.0; 3])];
    for call in &steps {
        let mut late = study();
        late.put_steps(u32::MAX);
        due(&late, call, SPENT_CLOCK);
        for id in [3, 4, 16, u32::MAX] {
            *late.ids.last_mut().unwrap() = id;
            due(&late, call, STALE_MATERIAL);
        }
    }
}

/// A run is taken whole or not at all: one step more than the clock has left is refused before the first is taken.
#[test]
fn a_run_into_the_last_step() {
    let mut standing = study();
    standing.put_steps(u32::MAX - 2);
    due(&standing, &Call::Run(vec![1.0; 3]), SPENT_CLOCK);
    let (mut whole, mut single) = (standing.clone(), standing);
    assert_eq!(whole.run(&[1.0, 2.0]), 0);
    assert_eq!([1.0, 2.0].map(|x| single.step(x)), [0, 0]);
    assert_eq!(first_difference(&single, &whole), None);
    assert_eq!(whole.record().unwrap().steps, u32::MAX);
}

/// A run of no steps changes nothing, and a study that a step would refuse is refused by it too.
#[test]
fn a_run_of_no_steps() {
    let standing = study();
    let mut idle = standing.clone();
    assert_eq!(idle.run(&[]), 0);
    assert!(untouched(&standing, &idle));
    let mut stale = study();
    stale.ids[0] = u32::MAX;
    due(&stale, &Call::Run(vec![]), STALE_MATERIAL);
}

/// A further answer goes into the first place of its room alone, if there is one.
#[test]
fn room_for_a_further_answer() {
    let standing = study();
    for length in 0..3 {
        let mut study = standing.clone();
        let (mut id, mut active) = (vec![7; length], vec![7; length]);
        assert_eq!(study.add_material(&material(&[]).write(), &mut id), 0);
        assert_eq!(id, [4, 7][..length]);
        let given = tables().0;
        assert_eq!(
            study.set_boundary_cpml([true; 3], 1, &given, &mut active),
            0
        );
        assert_eq!(active, [4, 7][..length]);

        let mut lengths = vec![7; length];
        study.block[12] = 0;
        assert_eq!(study.save_length(&mut lengths), BAD_STUDY);
        assert_eq!(lengths, [0, 7][..length]);
        study.block[12] = 1;

        let mut numbers = vec![7.0; length];
        assert_eq!(study.plane_reading(9, &mut numbers), NO_SUCH_PLANE);
        assert_eq!(numbers, [0.0, 7.0][..length]);
        assert_eq!(study.apply(&standing::opening()).refusal, 0);
        let mut numbers = vec![7.0; length];
        assert_eq!(study.total_energy(&mut numbers), 0);
        assert_eq!(numbers, [0.0, 7.0][..length]);
    }
}

/// Bytes that are no material's: 125 of them are refused as a block that is no record is, and another
/// number of them as a store of another length.
fn no_materials() -> Vec<Vec<u8>> {
    let good = material(&[3]).write();
    let mut all = vec![Vec::new(), good[1..].to_vec(), [&good[..], &[0]].concat()];
    for (at, value) in [(25, 0), (25, 4), (50, 1), (51, 1), (42, 1), (124, 9)] {
        let mut bytes = good.clone();
        bytes[at] = value;
        all.push(bytes);
    }
    all
}

/// The bytes handed to a copy of the study.
fn added(standing: &Study, bytes: &[u8], refusal: u32) {
    assert_eq!(adding(standing, bytes), refusal);
    let mut after = standing.clone();
    let mut id = [7];
    assert_eq!(after.add_material(bytes, &mut id), refusal);
    assert!(untouched(standing, &after) && id == [0]);
}

#[test]
fn bytes_that_are_no_material() {
    let mut full = study();
    while full.record().unwrap().material_count < 16 {
        let more = Call::AddMaterial(material(&[]));
        assert_eq!(full.apply(&more).refusal, 0);
    }
    for bytes in no_materials() {
        let number = match bytes.len() {
            block::MATERIAL => BAD_STUDY,
            _ => BAD_STORE,
        };
        added(&study(), &bytes, number);
        added(&full, &bytes, number);
    }
}

/// Any NaN in a material's three numbers is taken, and the one is written; with one in its pole it is refused.
#[test]
fn a_material_with_another_nan() {
    let standing = study();
    let good = material(&[3]).write();
    let nans = [0x7FF0_0000_0000_0001_u64, 0x7FF9_0000_0000_0000, u64::MAX];
    let with = |at: usize, bits: u64| {
        let mut bytes = good.clone();
        bytes[at..at + 8].copy_from_slice(&bits.to_le_bytes());
        bytes
    };
    for (at, bits) in [0, 8, 16].into_iter().flat_map(|at| nans.map(|n| (at, n))) {
        let [odd, one] = [bits, block::NAN].map(|bits| {
            let (bytes, mut study) = (with(at, bits), standing.clone());
            assert_eq!(adding(&study, &bytes), 0);
            let refusal = study.add_material(&bytes, &mut []);
            assert_eq!(refusal, 0, "{bits:016X} at {at}");
            study
        });
        assert!(untouched(&one, &odd));
    }
    for bits in nans.into_iter().chain([block::NAN]) {
        added(&standing, &with(26, bits), BAD_POLE);
        added(&standing, &with(34, bits), BAD_POLE);
    }
}

/// What is wrong with the record comes before what is wrong with the bytes.
#[test]
fn no_material_for_a_record_with_a_fault() {
    let record = study().record().unwrap();
    let spoilt: [(u32, fn(&mut Record)); 6] = [
        (BAD_SIZE, |r| r.sizes[1] = 513),
        (BAD_SPACING, |r| r.spacings[3] = 0.0),
        (BAD_STUDY, |r| r.pole_slots = 5),
        (BAD_STUDY, |r| r.constants = 2),
        (BAD_STUDY, |r| r.region.kind = 4),
        (BAD_STUDY, |r| r.materials[0] = material(&[1])),
    ];
    for (number, spoil) in spoilt {
        let (mut spoilt, mut study) = (record.clone(), study());
        spoil(&mut spoilt);
        study.block = spoilt.write();
        for bytes in no_materials() {
            added(&study, &bytes, number);
        }
    }
    let mut short = study();
    short.block.pop();
    for bytes in no_materials() {
        added(&short, &bytes, BAD_STUDY);
    }
}
