//! What the random studies came by, so that a generator that misses something is seen.

use std::collections::BTreeMap;

use super::poles::PoleTally;
use crate::call::Call;
use crate::choose::{LONG_ROW, LONG_SIDE, row_axis};
use crate::engine::Study;
use crate::engine::block::Record;
use crate::report;

#[derive(Default)]
pub struct Tally {
    /// By the constants that they were opened with.
    pub studies: [u64; 2],
    calls: BTreeMap<String, u64>,
    refusals: BTreeMap<u32, u64>,
    steps: BTreeMap<&'static str, u64>,
    /// Calls on a block that has another NaN than the one.
    on_another_nan: BTreeMap<String, u64>,
    poles: PoleTally,
}

impl Tally {
    /// Counts a call by the block that it gets: the engine's on one with another NaN than the one, and by its poles.
    pub fn count_block(&mut self, call: &Call, study: &Study) {
        let record = study.record().unwrap();
        if !call.is_by_hand() && record.write() != study.block {
            *self.on_another_nan.entry(call.name()).or_default() += 1;
        }
        self.poles.count_record(call, &record);
    }

    /// Counts a call by its name and refusal, and an accepted step by what it ran through.
    pub fn count(&mut self, call: &Call, refusal: u32, study: &Study) {
        *self.calls.entry(call.name()).or_default() += 1;
        *self.refusals.entry(refusal).or_default() += 1;
        self.poles.count(call, refusal, study);
        if refusal != 0 || !matches!(call, Call::Step(_) | Call::Run(_)) {
            return;
        }
        let record = study.record().unwrap();
        let [.., k0, k1] = record.region.corners;
        let (kind, top) = (record.region.kind, record.sizes[2] - 1);
        let finite = study.e.iter().chain(&study.h).all(|x| x.is_finite());
        let long = record.sizes[row_axis(&record.sizes)] >= LONG_ROW;
        let kinds = [
            ("all", true),
            ("with finite fields", finite),
            ("in rows of 16 cells and more", long),
            (
                "in such rows with an active layer",
                long && record.active.contains(&true),
            ),
            (
                "with a side above 24",
                record.sizes.iter().any(|n| *n > LONG_SIDE),
            ),
            ("periodic", record.periodic.contains(&true)),
            (
                "with a periodic axis of one cell",
                one_cell(&record.sizes, &record.periodic),
            ),
            ("with an active layer", record.active.contains(&true)),
            ("with all axes active", record.active == [true; 3]),
            (
                "with an active axis of one cell",
                one_cell(&record.sizes, &record.active),
            ),
            ("with polarizations", record.built_count != 0),
            ("with materials built that have no pole", no_pole(&record)),
            ("with a slab", kind == 1),
            ("with an injector", kind == 2),
            ("with a box", kind == 3),
            (
                "with a slab of its own corners",
                kind == 1 && own_corners(&record),
            ),
            (
                "with an injector of its own corners",
                kind == 2 && own_corners(&record),
            ),
            ("with a region from k0 = 0", kind != 0 && k0 == 0),
            ("with a region up to k1 = nz - 1", kind != 0 && k1 == top),
        ];
        let kinds = kinds.into_iter().chain(by_constants(&record));
        for (name, _) in kinds.filter(|(_, holds)| *holds) {
            *self.steps.entry(name).or_default() += 1;
        }
    }

    /// Takes in what another one has counted.
    pub fn join(&mut self, other: Self) {
        for (studies, more) in self.studies.iter_mut().zip(other.studies) {
            *studies += more;
        }
        add(&mut self.calls, other.calls);
        add(&mut self.refusals, other.refusals);
        add(&mut self.steps, other.steps);
        add(&mut self.on_another_nan, other.on_another_nan);
        self.poles.join(other.poles);
    }

    pub fn report(&self) {
        let calls: u64 = self.calls.values().sum();
        let [old, new] = self.studies;
        report(&format!(
            "studies: {old} opened with the older constants and {new} with those of 2019, {calls} calls, every store equal after every call"
        ));
        report(&format!("  calls {:?}", self.calls));
        report(&format!("  answers {:?}", self.refusals));
        report(&format!("  accepted steps {:?}", self.steps));
        report(&format!(
            "  on a block with another NaN {:?}",
            self.on_another_nan
        ));
        self.poles.report();
    }

    /// Every kind of call, every refusal that a study can bring on and every kind of step was there, and every
    /// call of the engine on a block with another NaN too.
    pub fn is_varied(&self) -> bool {
        let of_the_engine = 21;
        !self.studies.contains(&0)
            && self.calls.len() == of_the_engine + 8
            && self.refusals.len() == 12
            && self.steps.len() == 23
            && self.on_another_nan.len() == of_the_engine
            && self.poles.is_varied(of_the_engine)
    }
}

pub(super) fn add<K: Ord>(counts: &mut BTreeMap<K, u64>, more: BTreeMap<K, u64>) {
    for (key, n) in more {
        *counts.entry(key).or_default() += n;
    }
}

/// Which constants a step goes by; poles and the line have uses of their own.
fn by_constants(record: &Record) -> [(&'static str, bool); 4] {
    let new = record.constants == 1;
    let poles = record.materials.iter().any(|m| m.pole_count != 0);
    [
        ("with the older constants", !new),
        ("with the constants of 2019", new),
        (
            "with those of 2019 and poles",
            new && poles && record.built_count != 0,
        ),
        (
            "with those of 2019 and a region",
            new && record.region.kind != 0,
        ),
    ]
}

/// Whether materials are built of which none has a pole.
fn no_pole(record: &Record) -> bool {
    let built = &record.materials[..record.built_count.into()];
    !built.is_empty() && built.iter().all(|m| m.pole_count == 0)
}

/// Whether the region does not reach over the whole plane, as the calls for slab and injector have it.
fn own_corners(record: &Record) -> bool {
    let ([nx, ny, _], [i0, i1, j0, j1, ..]) = (record.sizes, record.region.corners);
    [i0, i1, j0, j1] != [0, nx - 1, 0, ny - 1]
}

fn one_cell(sizes: &[usize; 3], flags: &[bool; 3]) -> bool {
    sizes.iter().zip(flags).any(|(n, flag)| *n == 1 && *flag)
}
