//! What the random pairs came by, so that a generator that goes idle is seen.

use crate::cell::{Place, STORES, differing, places};
use crate::grid::{AXES, Grid, TABLES};
use crate::pair::Pair;
use crate::pairs::{Case, FARTHEST};
use compare::choose::{LONG_ROW, row_axis};
use compare::engine::Study;
use compare::fill::Store;
use compare::{agree, report};
use std::collections::BTreeMap;

/// How many in a thousand pairs are of each kind at the least.
const LEAST: u64 = 20;

#[derive(Default)]
pub struct Tally {
    pairs: u64,
    /// By n: pairs with a cell that is farther, and those of them that end with other fields.
    farther: [u64; FARTHEST + 1],
    unlike: [u64; FARTHEST + 1],
    /// By n: those of them in which the change has come to a cell next to the named one.
    near: [u64; FARTHEST + 1],
    /// Of the pairs with a cell that is farther.
    kinds: BTreeMap<String, u64>,
}

impl Tally {
    /// Where no cell is farther than n, the two studies are one, and the pair is not counted further.
    pub fn count(&mut self, case: &Case, start: &Pair, end: &Pair) {
        self.pairs += 1;
        if case.grid.beyond(case.named, case.n).next().is_none() {
            return;
        }
        self.farther[case.n] += 1;
        self.unlike[case.n] += u64::from(fields_differ(&end.both));
        self.near[case.n] += u64::from(neighbour_differs(case, end));
        let kinds = [
            of_grid(case),
            of_record(case),
            of_change(start),
            of_cell(case, &start.both[0]),
            of_run(case, &start.both[0], end),
        ];
        for (name, holds) in kinds.concat() {
            *self.kinds.entry(name).or_default() += u64::from(holds);
        }
    }

    pub fn report(&self) {
        report(&format!(
            "reach: {} pairs, the named cell equal in each; by n: with a cell that is farther {:?}, other fields at the end {:?}, another cell next to the named one {:?}; with a cell that is farther: {:?}",
            self.pairs, self.farther, self.unlike, self.near, self.kinds
        ));
    }

    /// The kinds that too few pairs are of. At n = 0 no step brings the change nearer.
    pub fn missing(&self) -> Vec<String> {
        let by_n = |name: &str, counts: &[u64], first: usize| -> Vec<(String, u64)> {
            let numbered = counts.iter().enumerate().skip(first);
            numbered
                .map(|(n, count)| (format!("{name}, n = {n}"), *count))
                .collect()
        };
        let mut counts = by_n("a cell farther", &self.farther, 0);
        counts.extend(by_n("other fields", &self.unlike, 0));
        counts.extend(by_n("another cell next to the named one", &self.near, 1));
        counts.extend(self.kinds.clone());
        counts.retain(|(_, count)| count * 1000 < self.pairs * LEAST);
        counts.into_iter().map(|(name, _)| name).collect()
    }
}

/// Whether any number of E or H is another.
fn fields_differ([a, b]: &[Study; 2]) -> bool {
    let pairs = |a: &[f64], b: &[f64]| a.iter().zip(b).any(|(x, y)| !agree(*x, *y));
    pairs(&a.e, &b.e) || pairs(&a.h, &b.h)
}

/// Whether a cell that is one from the named one has another number.
fn neighbour_differs(case: &Case, end: &Pair) -> bool {
    let [a, b] = &end.both;
    let next = |cell: &_| case.grid.distance(case.named, *cell) == 1;
    let mut cells = case.grid.cells().filter(next);
    cells.any(|cell| !differing(a, b, case.grid.at(cell)).is_empty())
}

type Kinds = Vec<(String, bool)>;

/// Whether on the named cell's line along an axis a cell is within n only by going round.
fn goes_round(case: &Case, axis: usize) -> bool {
    let by = |grid: Grid, cell| grid.distance(case.named, cell);
    (0..case.grid.sizes[axis]).any(|at| {
        let mut cell = case.named;
        cell[axis] = at;
        by(case.grid, cell) <= case.n && by(case.grid.straight(), cell) > case.n
    })
}

fn of_grid(case: &Case) -> Kinds {
    let (Grid { sizes, periodic }, active) = (case.grid, case.record.active);
    let mut kinds = Kinds::new();
    for (axis, name) in AXES.into_iter().enumerate() {
        let end = [0, sizes[axis] - 1].contains(&case.named[axis]);
        let wall = !periodic[axis] && sizes[axis] > 1 && end;
        let round = goes_round(case, axis);
        kinds.push((format!("within n only by going round {name}"), round));
        kinds.push((format!("on a wall of {name}"), wall));
        kinds.push((format!("{name} active"), active[axis]));
    }
    let some = |holds: &dyn Fn(usize) -> bool| (0..3).any(holds);
    let kind = |name: &str, holds| (name.to_string(), holds);
    kinds.extend([
        kind(
            "an axis both periodic and active",
            some(&|axis| periodic[axis] && active[axis]),
        ),
        kind(
            "an axis of one cell",
            some(&|axis| sizes[axis] == 1 && !periodic[axis]),
        ),
        kind(
            "a periodic axis of one cell",
            some(&|axis| sizes[axis] == 1 && periodic[axis]),
        ),
        kind(
            "rows of 16 cells and more",
            sizes[row_axis(&sizes)] >= LONG_ROW,
        ),
    ]);
    kinds
}

fn of_record(case: &Case) -> Kinds {
    let record = &case.record;
    let mut kinds = Kinds::new();
    for (kind, name) in ["no region", "slab", "injector", "box"].iter().enumerate() {
        let holds = usize::from(record.region.kind) == kind;
        kinds.push((name.to_string(), holds));
    }
    for slots in 0..=4 {
        let holds = record.pole_slots == slots && record.built_count != 0;
        kinds.push((format!("built with P = {slots}"), holds));
    }
    kinds.push(("nothing built".into(), record.built_count == 0));
    kinds.push(("older constants".into(), record.constants == 0));
    kinds.push(("constants of 2019".into(), record.constants == 1));
    kinds
}

/// By the stores in which cells far away have other numbers.
fn of_change(start: &Pair) -> Kinds {
    let [a, b] = &start.both;
    let differ = |store| match store {
        Store::Ids => a.ids != b.ids,
        store => {
            let [a, b] = [a, b].map(|study| study.stores()[store as usize].1);
            a.iter().zip(b).any(|(x, y)| !agree(*x, *y))
        }
    };
    let kinds = STORES.map(|store| (format!("another {store:?} far away"), differ(store)));
    let mut kinds = Vec::from(kinds);
    kinds.push(("an equal NaN of other bits".into(), other_nan(start)));
    kinds
}

/// Whether a NaN of the tables, the line or the named cell has other bits in the second study.
fn other_nan(start: &Pair) -> bool {
    let numbers = |study: &Study| {
        let mut numbers = [&study.tables[..], &study.aux].concat();
        let of_cell = |place: &Place| place.of(study, start.at);
        numbers.extend(places(study).iter().map(of_cell));
        numbers
    };
    let [a, b] = start.both.each_ref().map(numbers);
    let mut pairs = a.iter().zip(&b);
    pairs.any(|(x, y)| x.to_bits() != y.to_bits() && agree(*x, *y))
}

/// By what the named cell's steps run through: poles, and the layer's c.
fn of_cell(case: &Case, start: &Study) -> Kinds {
    let record = &case.record;
    let steps = case.n != 0;
    let id = start.ids[case.grid.at(case.named)] as usize;
    let built = &record.materials[..record.built_count.into()];
    let poles = built.get(id).map_or(&[][..], |material| &material.poles);
    let active = (0..3).filter(|axis| record.active[*axis]);
    let numbers = active.flat_map(|axis| (0..TABLES.len()).map(move |which| (axis, which)));
    let of_c = numbers.filter(|(_, which)| TABLES[*which].starts_with('c'));
    let c: Vec<f64> = of_c
        .map(|(axis, which)| start.tables[case.grid.in_tables(case.named, axis, which)])
        .collect();
    let pole = |tag| steps && poles.iter().any(|pole| pole.tag == tag);
    let some_c = |holds: fn(f64) -> bool| steps && c.iter().any(|c| holds(*c));
    let kinds = [
        ("a Lorentz pole in the cell", pole(1)),
        ("a Drude pole in the cell", pole(2)),
        ("a Debye pole in the cell", pole(3)),
        ("c of 0.0 at the cell", some_c(|c| c.to_bits() == 0)),
        ("c of -0.0 at the cell", some_c(|c| agree(c, -0.0))),
        ("c of NaN at the cell", some_c(f64::is_nan)),
        (
            "another c at the cell",
            some_c(|c| c.is_finite() && c != 0.0),
        ),
    ];
    kinds.map(|(name, holds)| (name.to_string(), holds)).into()
}

fn of_run(case: &Case, start: &Study, end: &Pair) -> Kinds {
    let (study, cells) = (&end.both[0], start.ids.len());
    let fields = |study: &Study| {
        let of = |store: &[f64]| [0, 1, 2].map(|part| store[part * cells + end.at]);
        [of(&study.e), of(&study.h)].concat()
    };
    let (before, after) = (fields(start), fields(study));
    let finite = after.iter().all(|x| x.is_finite());
    let moved = before.iter().zip(&after).any(|(x, y)| !agree(*x, *y));
    let spent = study.record().unwrap().steps == u32::MAX;
    let steps = case.n != 0;
    let kinds = [
        ("by steps", steps && !case.in_one_run),
        ("by a run", steps && case.in_one_run),
        ("up to the clock's end", steps && spent),
        (
            "a sample not finite",
            case.samples.iter().any(|x| !x.is_finite()),
        ),
        ("the cell moved, with finite fields", moved && finite),
        (
            "a NaN in the cell's fields",
            steps && after.iter().any(|x| x.is_nan()),
        ),
    ];
    kinds.map(|(name, holds)| (name.to_string(), holds)).into()
}
