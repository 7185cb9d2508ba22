//! The same slabs by the original Rust, and the layer's tables: equal in every bit, all NaNs counted as one. The original takes the system's exp, ln and powf for
//! the tables, and so they are taken here; how far the product's are from that, which has functions of its own, is told beside it.

use crate::CONSTANTS;
use crate::report::Section;
use crate::slabs::{COURANT, Line, cases};
use cichowiej::{Constants, CpmlConfig, Functions, Grid, Refusal};
use rayon::prelude::*;

/// What was compared: how many numbers, and the first that differs.
#[derive(Debug, Clone, Default)]
pub struct Same {
    pub numbers: u64,
    pub difference: Option<String>,
}

/// Whether there is an original, and where it was looked for.
pub const FOUND: bool = cfg!(original);
const FOLDER: &str = env!("ORIGINAL");

/// The original's.
pub const SYSTEM: Functions = Functions { exp: f64::exp, ln: f64::ln, powf: f64::powf };

/// A line that says so.
pub fn told() -> String {
    if FOUND {
        format!("compared with the original at {FOLDER}")
    } else {
        format!("NOT COMPARED: the original was not found at {FOLDER} (PHYZ_EM_SRC names its folder)")
    }
}

/// The original, driven as a study is.
pub trait Original {
    /// A line, with its slab or without, in the order of `Line::study`.
    fn new(line: &Line, filled: bool) -> Self;
    fn step(&mut self, sample: f64);
    fn ex(&self) -> &[f64];
    fn hy(&self) -> &[f64];
    fn incident(&self, k: usize) -> f64;
    /// The tables that it computes, in store order.
    fn tables(grid: &Grid, layer: &CpmlConfig) -> Vec<f64>;
}

#[cfg(original)]
mod compared {
    use super::{Original, SYSTEM, Same};
    use crate::random::Random;
    use crate::report::largest;
    use crate::slabs::Line;
    use crate::{new, old};
    use cichowiej::{Constants, Field, Functions, Refusal, tables_with};

    impl Same {
        /// Takes numbers side by side; `place` tells where they stand.
        fn take(&mut self, ours: &[f64], theirs: &[f64], place: impl Fn() -> String) {
            self.numbers += ours.len() as u64;
            let same = |(a, b): (&f64, &f64)| a.to_bits() == b.to_bits() || (a.is_nan() && b.is_nan());
            let at = ours.iter().zip(theirs).position(|pair| !same(pair));
            let at = at.or_else(|| (ours.len() != theirs.len()).then(|| ours.len().min(theirs.len())));
            if let (None, Some(at)) = (&self.difference, at) {
                let pair = (ours.get(at), theirs.get(at));
                self.difference = Some(format!("{}, number {at}: {pair:?}", place()));
            }
        }
    }

    /// ex and hy of every plane, and the incident wave at the planes that are used, after every step.
    fn slab_by<Theirs: Original>(line: &Line, filled: bool) -> Result<Same, Refusal> {
        let (mut study, mut theirs, mut same) = (line.study_with(filled, &SYSTEM)?, Theirs::new(line, filled), Same::default());
        let places = line.places();
        let planes = [places.before, places.wave, places.slab, places.behind];
        for (step, sample) in line.samples().into_iter().enumerate() {
            study.step(sample)?;
            theirs.step(sample);
            let place = |what: &str| format!("{what} of {} at {} cells, step {step}", line.case.name, line.fine);
            same.take(study.component(Field::Electric, 0), theirs.ex(), || place("ex"));
            same.take(study.component(Field::Magnetic, 1), theirs.hy(), || place("hy"));
            let incident = planes.map(|k| study.incident(k).unwrap_or(f64::NAN));
            same.take(&incident, &planes.map(|k| theirs.incident(k)), || place("the wave's line"));
        }
        Ok(same)
    }

    pub fn slab(line: &Line, filled: bool) -> Result<Option<Same>, Refusal> {
        match line.constants {
            Constants::Old => slab_by::<old::theirs::Theirs>(line, filled),
            Constants::Si2019 => slab_by::<new::theirs::Theirs>(line, filled),
        }
        .map(Some)
    }

    /// The layer's tables for so many random grids and configurations, unusual ones among them.
    pub fn layer_tables(count: u64, constants: Constants) -> Option<Same> {
        let (mut random, mut same) = (Random(1), Same::default());
        let theirs = match constants {
            Constants::Old => old::theirs::Theirs::tables,
            Constants::Si2019 => new::theirs::Theirs::tables,
        };
        for _ in 0..count {
            let grid = random.grid(constants);
            let config = random.config(&grid);
            let ours = tables_with(&grid, &config, &SYSTEM).unwrap_or_default();
            same.take(&ours, &theirs(&grid, &config), || format!("tables of {grid:?} with {config:?}"));
        }
        Some(same)
    }

    /// The largest part by which numbers of the product's tables on the same grids differ from the original's: of 1/κ, of b and of c.
    pub fn own_tables(count: u64, constants: Constants) -> Option<[f64; 3]> {
        let (mut random, mut farthest) = (Random(1), [0.0; 3]);
        for _ in 0..count {
            let grid = random.grid(constants);
            let config = random.config(&grid);
            let by = |functions: Functions| tables_with(&grid, &config, &functions).unwrap_or_default();
            // six tables for each cell of an axis
            let which = grid.cells.into_iter().flat_map(|n| (0..6 * n).map(move |at| at / n % 3));
            which.zip(by(Functions::OWN).into_iter().zip(by(SYSTEM))).for_each(|(which, (own, theirs))| {
                farthest[which] = largest(farthest[which], part(own, theirs));
            });
        }
        Some(farthest)
    }

    /// By which part one number differs from another; all NaNs are one.
    fn part(own: f64, theirs: f64) -> f64 {
        let same = own == theirs || (own.is_nan() && theirs.is_nan());
        if same { 0.0 } else { (own - theirs) / theirs.abs().max(f64::MIN_POSITIVE) }
    }
}

#[cfg(original)]
pub use compared::{layer_tables, own_tables, slab};

/// There is no original.
#[cfg(not(original))]
pub fn slab(_: &Line, _: bool) -> Result<Option<Same>, Refusal> {
    Ok(None)
}

#[cfg(not(original))]
pub fn layer_tables(_: u64, _: Constants) -> Option<Same> {
    None
}

#[cfg(not(original))]
pub fn own_tables(_: u64, _: Constants) -> Option<[f64; 3]> {
    None
}

/// By which part of themselves 1/κ, b and c of the product's tables may differ from the original's. b is an exponential of up to 745; c has b - 1 in it, of which
/// few bits are left where b is next to 1.
const NEAR: [f64; 3] = [1e-12, 1e-11, 1e-6];

pub fn are_near(farthest: [f64; 3]) -> bool {
    farthest.iter().zip(NEAR).all(|(part, near)| *part < near)
}

/// Every slab at a size of cells, and its empty line.
pub fn slabs(fine: usize, constants: Constants) -> Result<Option<Same>, Refusal> {
    let lines: Vec<Line> = cases().into_iter().map(|case| Line { case, fine, courant: COURANT, constants }).collect();
    let both: Vec<(&Line, bool)> = lines.iter().flat_map(|line| [(line, false), (line, true)]).collect();
    let all = both.into_par_iter().map(|(line, filled)| slab(line, filled)).collect::<Result<Option<Vec<Same>>, Refusal>>();
    let sum = |all: Vec<Same>| {
        all.into_iter().fold(Same::default(), |sum, one| Same {
            numbers: sum.numbers + one.numbers,
            difference: sum.difference.or(one.difference),
        })
    };
    Ok(all?.map(sum))
}

pub fn section() -> Result<Section, Refusal> {
    let mut out = Section::new("original");
    for constants in Constants::ALL {
        let with = if constants == CONSTANTS { String::new() } else { format!(", constants of {constants}") };
        for fine in [10, 20, 40] {
            say(&mut out, &format!("slabs at {fine} cells a wavelength{with}"), slabs(fine, constants)?);
        }
        say(&mut out, &format!("the layer's tables on 20000 random grids{with}"), layer_tables(20_000, constants));
        if let Some(farthest) = own_tables(20_000, constants) {
            let [kinv, b, c] = NEAR;
            out.say(format!(
                "the same by the library's own functions{with}: 1/κ to {kinv:e}, b to {b:e} and c to {c:e} of themselves"
            ));
            out.must(are_near(farthest), format!("own tables{with} differ by {farthest:?}"));
        }
    }
    Ok(out)
}

fn say(out: &mut Section, what: &str, same: Option<Same>) {
    match same {
        None => out.say(format!("{what}: NOT COMPARED")),
        Some(Same { numbers, difference: None }) => out.say(format!("{what}: equal in every bit, {numbers} numbers")),
        Some(Same { difference: Some(place), .. }) => out.must(false, format!("{what} differ first in {place}")),
    }
}
