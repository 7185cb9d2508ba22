//! Demand 3: of a long list of calls, saves and rewinds and refused ones among them, only those that
//! stand by document 01's rules are made once more, on another block and other stores. None of them is
//! refused, each answers as it did, and at the end both hold the same study and go on alike.
//!
//! CICHOWIEJ_HISTORIES sets the number of lists (`make compare-long`: 20,000), and CICHOWIEJ_SEED plays
//! the one of a seed that a failure has named.

mod list;
mod rule;
mod run;
mod tally;

use compare::call::{Bytes, Call};
use compare::difference::first_difference;
use compare::engine::Study;
use compare::{Random, complaint, save, sound, variable};
use list::List;
use run::{Made, Run, Saved, made};
use tally::Tally;

const LISTS: u64 = 400;
const FURTHER_CALLS: usize = 6;

/// Run B: the calls that stand, in order. Every opening is handed noise of B's own or what B has.
fn again(random: &mut Random, standing: &[&Made]) -> Study {
    let mut study = Study::lent([1, 1, 1], 0);
    for one in standing {
        if let Call::Open {
            sizes, pole_slots, ..
        } = one.call
            && (compare::judge::refusal(&study, &one.call) != 0 || random.once_in(2))
        {
            study = sound::noise(random, sizes, pole_slots);
        }
        let answer = study.apply(&one.call);
        assert_eq!(answer.refusal, 0, "{:?} in the second run", one.call);
        assert!(
            answer.agrees(&one.answer),
            "{:?} answers otherwise",
            one.call
        );
    }
    study
}

/// Steps since the last opening.
fn steps(standing: &[&Made]) -> u32 {
    let steps = |steps, one: &&Made| match &one.call {
        Call::Open { .. } => 0,
        Call::Step(_) => steps + 1,
        Call::Run(samples) => steps + samples.len() as u32,
        _ => steps,
    };
    standing.iter().fold(0, steps)
}

fn equal(a: &Study, b: &Study) {
    assert_eq!(first_difference(a, b), None);
    let length = save::length(&a.record().unwrap());
    let saves = [a, b].map(|study| study.saved(length));
    assert!(
        saves[0].refusal == 0 && saves[0].agrees(&saves[1]),
        "other saves"
    );
}

/// Run B beside what run A has come to.
fn compared(random: &mut Random, run: &Run) -> [Study; 2] {
    let standing = run.standing();
    let other = again(random, &standing);
    let study = run.study();
    equal(study, &other);
    for study in [study, &other] {
        assert_eq!(study.record().unwrap().steps, steps(&standing));
    }
    [study.clone(), other]
}

/// A save as it was written or, where it can be, as it was before there were constants.
fn either_form(random: &mut Random, saved: &Saved) -> Vec<u8> {
    match saved.constants {
        0 if random.once_in(2) => save::old(&saved.bytes),
        _ => saved.bytes.clone(),
    }
}

/// Further calls get equal answers from both, whatever they are.
fn further(list: &mut List, mut both: [Study; 2]) {
    for _ in 0..FURTHER_CALLS {
        let saves = &list.run.saves;
        let call = match list.random.below(4) {
            0 if !saves.is_empty() => {
                let saved = &saves[list.random.index(saves.len())];
                Call::Rewind(Bytes(either_form(&mut list.random, saved)))
            }
            1 => list.chooser.opening(),
            _ => list.call(),
        };
        let [(a, first), (b, second)] = both.each_ref().map(|study| made(study, &call));
        assert!(first.agrees(&second), "{call:?} answers otherwise");
        list.tally.further(&call, first.refusal);
        both = [a, b];
    }
    equal(&both[0], &both[1]);
}

/// The list of a seed.
fn play(seed: u64, tally: Tally) -> Tally {
    let mut list = List::new(seed, tally);
    let said = complaint(|| {
        for _ in 0..5 + list.random.below(120) {
            list.turn();
        }
        let both = compared(&mut list.random, &list.run);
        further(&mut list, both);
    });
    if let Some(said) = said {
        let calls = list.run.told.join("\n  ");
        panic!("list of seed {seed}: {said}\nafter the calls\n  {calls}");
    }
    let standing = list.run.copies.list.len();
    list.tally.end(list.run.study(), standing);
    list.tally
}

#[test]
fn lists() {
    let tally = Tally::default();
    if let Some(seed) = variable("CICHOWIEJ_SEED") {
        return play(seed, tally).report();
    }
    let lists = variable("CICHOWIEJ_HISTORIES").unwrap_or(LISTS);
    let tally = (0..lists).fold(tally, |tally, seed| play(seed, tally));
    tally.report();
    assert!(tally.is_varied() || lists < LISTS);
}

/// A list with everything in it that the rules speak of, and the calls of it that stand, written by hand.
#[test]
fn a_worked_list() {
    let mut tally = Tally::default();
    let mut run = Run::default();
    let open = |sizes, constants| Call::Open {
        sizes,
        pole_slots: 0,
        constants,
        spacings: [1.0; 4],
    };
    let lent = |sizes| Some(Study::lent(sizes, 0));
    let mut make = |call: Call, lent: Option<Study>| {
        (run.make(call, lent, &mut tally), run.saves.last().cloned())
    };
    let [two, four] = [[1, 1, 2], [4, 1, 1]];
    let room = 1_649;

    assert_eq!(make(open(two, 0), lent(two)).0, 0); // 0
    assert_eq!(make(Call::Injector { k0: 0 }, None).0, 0); // 1
    assert_eq!(make(Call::Step(1.0), None).0, 0); // 2
    let (refusal, first) = make(Call::Save(room), None); // 3
    assert_eq!(refusal, 0);
    let first = first.unwrap().bytes;
    assert_eq!(make(Call::PlaneReading(2), None).0, 17);
    assert_eq!(make(Call::TotalEnergy, None).0, 0); // 4
    let (refusal, second) = make(Call::Save(room), None); // 5
    assert!(refusal == 0 && second.unwrap().bytes == first);
    assert_eq!(make(Call::Step(2.0), None).0, 0); // 6
    let short = Bytes(first[..first.len() - 1].to_vec());
    assert_eq!(make(Call::Rewind(short), None).0, 13);
    // The latest copy: what stood before call 5.
    assert_eq!(make(Call::Rewind(Bytes(first.clone())), None).0, 0);
    assert_eq!(make(Call::Run(vec![3.0, 4.0]), None).0, 0); // 7
    let (refusal, third) = make(Call::Save(room + 9), None); // 8
    assert_eq!(refusal, 0);
    let third = third.unwrap().bytes;
    assert_eq!(make(open(four, 1), lent(four)).0, 0); // 9
    assert_eq!(make(Call::Step(5.0), None).0, 0); // 10
    assert_eq!(make(Call::Rewind(Bytes(third.clone())), None).0, 4);
    assert_eq!(make(Call::Rewind(Bytes(third)), lent(two)).0, 0);
    assert_eq!(make(Call::PlaneReading(1), None).0, 0); // 11

    assert_eq!(run.copies.list, [0, 1, 2, 3, 4, 7, 11]);
    assert_eq!(steps(&run.standing()), 3);
    compared(&mut Random::new(3), &run);
}
