//! The coefficients of the polarization's recursion: they are the original's numbers, and the second reading's, and a
//! pole is refused just where one of its three is not finite.

use compare::engine::block::Pole;
use compare::engine::{ade_coeffs, cichowiej_eps0, cichowiej_eps0_2019};
use compare::judge::poles::{coefficients, passes};
use compare::judge::{BAD_POLE, BAD_STORE, BAD_STUDY};
use compare::poles::{Poles, used};
#[cfg(original)]
use compare::theirs;
use compare::{Mix, Random, agree, report};

const DRAWN: u64 = 10_000_000;
/// What stands before a call in the room for the three.
const BEFORE: [f64; 3] = [77.0; 3];

fn refused(tag: u32, length: usize, number: u32) {
    let mut out = vec![7.0; length];
    let answer = ade_coeffs(tag, [2.0, 0.0, 0.0], 1.0, 1.0, &mut out);
    assert_eq!(answer, number, "tag {tag}, room for {length}");
    assert_eq!(out, vec![7.0; length]);
}

/// Another length comes before another tag, and that before the pole, a Debye pole with tau 0; nothing is written.
#[test]
fn what_is_refused_first() {
    for tag in [0, 1, 2, 3, 4, u32::MAX] {
        for length in [0, 1, 2, 4] {
            refused(tag, length, BAD_STORE);
        }
    }
    for tag in [0, 4, 256 + 3, u32::MAX] {
        refused(tag, 3, BAD_STUDY);
    }
    refused(3, 3, BAD_POLE);
}

/// What is counted of poles.
const KINDS: [&str; 13] = [
    "all",
    "Lorentz",
    "Drude",
    "Debye",
    "a number 0",
    "subnormal",
    "negative",
    "infinite",
    "NaN",
    "gamma -2/dt",
    "a unit in the last place from the edge",
    "otherwise by the other constants",
    "a dt that no study has",
];
const NAN: usize = 8;

/// A pole and a time step.
struct Drawn {
    pole: Pole,
    dt: f64,
    at_edge: bool,
}

/// Of any sizes; or, for a time step that a study may have, one that can be stepped, one that cannot, one with gamma
/// -2/dt, one at the edge between the two kinds. What a pole of its kind does not use is any number.
fn drawn(random: &mut Random) -> Drawn {
    let way = random.below(8);
    let poles = Poles {
        dt: [random.with_field(1, 2046), random.with_field(950, 1050)][random.index(2)],
        constants: random.index(2) as u8,
        mix: Mix {
            odd: 100,
            zeros: 50,
        },
    };
    let mut dt = poles.dt;
    let mut pole = match way {
        0..3 => {
            dt = random.size();
            any(random)
        }
        3 | 4 => poles.good(random),
        5 => poles.bad(random),
        6 => with_gamma(poles.good(random), -2.0 / dt),
        _ => poles.edge(random)[random.index(2)].clone(),
    };
    if pole.tag != 1 {
        pole.numbers[2] = random.size();
    }
    let at_edge = way == 7;
    Drawn { pole, dt, at_edge }
}

fn any(random: &mut Random) -> Pole {
    let tag = 1 + random.below(3) as u8;
    let numbers = [0; 3].map(|_| random.size());
    Pole { tag, numbers }
}

fn with_gamma(mut pole: Pole, gamma: f64) -> Pole {
    match pole.tag {
        1 => pole.numbers[2] = gamma,
        2 => pole.numbers[1] = gamma,
        _ => {}
    }
    pole
}

impl Drawn {
    /// Which of the kinds it is.
    fn kinds(&self, otherwise: bool) -> [bool; KINDS.len()] {
        let (tag, numbers) = (self.pole.tag, used(&self.pole));
        let any = |kind: fn(&f64) -> bool| numbers.iter().any(kind);
        let gamma = numbers[numbers.len() - 1];
        [
            true,
            tag == 1,
            tag == 2,
            tag == 3,
            any(|x| *x == 0.0),
            any(|x| x.is_subnormal()),
            any(|x| *x < 0.0),
            any(|x| x.is_infinite()),
            any(|x| x.is_nan()),
            tag != 3 && gamma == -2.0 / self.dt,
            self.at_edge,
            otherwise,
            !(self.dt.is_finite() && self.dt > 0.0),
        ]
    }

    /// Whether it is accepted by a set of constants: the engine writes the three numbers that are due where all are
    /// finite, and else nothing.
    fn is_accepted(&self, constants: u8) -> bool {
        let Self { pole, dt, .. } = self;
        let due = due(constants, pole, *dt);
        let finite = due.iter().all(|a| a.is_finite());
        assert_eq!(passes(pole, constants, *dt), finite, "{pole:?}, dt {dt:e}");
        let eps0 = [cichowiej_eps0(), cichowiej_eps0_2019()][usize::from(constants)];
        let mut out = BEFORE;
        let answer = ade_coeffs(pole.tag.into(), pole.numbers, eps0, *dt, &mut out);
        let (number, written) = if finite { (0, due) } else { (BAD_POLE, BEFORE) };
        assert!(
            answer == number && same(out, written),
            "constants {constants}, {pole:?}, dt {dt:e}: {answer}, {out:?} in place of {number}, {written:?}"
        );
        finite
    }
}

fn same(a: [f64; 3], b: [f64; 3]) -> bool {
    a.into_iter().zip(b).all(|(x, y)| agree(x, y))
}

/// The three numbers by the second reading and, where it is there, by the original.
fn due(constants: u8, pole: &Pole, dt: f64) -> [f64; 3] {
    let second = coefficients(pole, constants, dt);
    #[cfg(original)]
    {
        let first = theirs::ade_coeffs(constants.into(), pole, dt);
        assert!(
            same(first, second),
            "constants {constants}, {pole:?}, dt {dt:e}: {first:?} by the original, {second:?} by the second reading"
        );
    }
    second
}

#[test]
fn coefficients_of_any_poles() {
    let mut random = Random::new(1969);
    // of each kind those that are accepted and those that are refused, by either constants
    let mut counts = [[0; 2]; KINDS.len()];
    for _ in 0..DRAWN {
        let drawn = drawn(&mut random);
        let accepted = [0, 1].map(|constants| drawn.is_accepted(constants));
        let kinds = drawn.kinds(accepted[0] != accepted[1]);
        for (count, holds) in counts.iter_mut().zip(kinds) {
            for accepted in accepted {
                count[usize::from(!accepted)] += u64::from(holds);
            }
        }
    }
    let [accepted, refused] = counts[0];
    report(&format!(
        "coefficients: {DRAWN} poles by either constants, {accepted} times accepted with the same three numbers and {refused} times refused as 19"
    ));
    for (kind, [accepted, refused]) in KINDS.iter().zip(counts) {
        report(&format!("  {kind}: {accepted} accepted, {refused} refused"));
    }
    for (at, [accepted, refused]) in counts.into_iter().enumerate() {
        assert!(
            (accepted > 0) == (at != NAN) && refused > 0,
            "{}",
            KINDS[at]
        );
    }
}

#[cfg(not(original))]
#[test]
#[ignore = "skipped: the original's source is not there (PHYZ_EM_SRC names its folder)"]
fn coefficients_of_the_original() {}
