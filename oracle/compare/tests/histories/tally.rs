//! What the lists came by, so that a generator that misses something is seen.

use compare::call::Call;
use compare::engine::Study;
use compare::judge::BAD_POLE;
use compare::report;
use compare::save::is_old;
use std::collections::BTreeMap;

#[derive(Default)]
pub struct Tally {
    lists: u64,
    calls: BTreeMap<String, u64>,
    refusals: BTreeMap<u32, u64>,
    met: BTreeMap<&'static str, u64>,
}

/// What has to be met.
pub const EQUAL_SAVES: &str = "saves with the bytes of an earlier one and another history";
pub const LATEST: &str = "rewinds to bytes with several histories";
pub const ACROSS: &str = "rewinds across an opening of other sizes";
pub const ABANDONED: &str = "rewinds to a save that stands no more";
const STANDING: &str = "calls that stand at the end";
const FURTHER: &str = "further calls";
const FINITE: &str = "ends with finite fields that are not all zero";
const NANS: &str = "ends with a NaN in a field";
const OLDER: &str = "ends with the older constants";
const NEW: &str = "ends with the constants of 2019";
pub const OTHER: &str = "rewinds to other constants";
const OLD_SAVES: &str = "further calls that took up an old save";
pub const FOREIGN_POLE: &str = "calls on a record of nobody with a pole that cannot be stepped";
const ALL: [&str; 13] = [
    EQUAL_SAVES,
    LATEST,
    ACROSS,
    ABANDONED,
    STANDING,
    FURTHER,
    FINITE,
    NANS,
    OLDER,
    NEW,
    OTHER,
    OLD_SAVES,
    FOREIGN_POLE,
];

impl Tally {
    pub fn count(&mut self, call: &Call, refusal: u32) {
        *self.calls.entry(call.name()).or_default() += 1;
        *self.refusals.entry(refusal).or_default() += 1;
    }

    pub fn meet(&mut self, what: &'static str, times: usize) {
        *self.met.entry(what).or_default() += times as u64;
    }

    /// Counts a call after the end, and whether it took up an old save.
    pub fn further(&mut self, call: &Call, refusal: u32) {
        let old = matches!(call, Call::Rewind(save) if is_old(&save.0));
        self.meet(FURTHER, 1);
        self.meet(OLD_SAVES, (old && refusal == 0).into());
    }

    /// Counts the end of a list by what the fields hold.
    pub fn end(&mut self, study: &Study, standing: usize) {
        let fields = || study.e.iter().chain(&study.h);
        let finite = fields().all(|x| x.is_finite()) && fields().any(|x| *x != 0.0);
        self.meet(FINITE, finite.into());
        self.meet(NANS, fields().any(|x| x.is_nan()).into());
        let constants = study.record().unwrap().constants;
        self.meet(OLDER, (constants == 0).into());
        self.meet(NEW, (constants == 1).into());
        self.meet(STANDING, standing);
        self.lists += 1;
    }

    pub fn report(&self) {
        let calls: u64 = self.calls.values().sum();
        report(&format!(
            "histories: {} lists of {calls} calls, each equal to the run of the calls that stand",
            self.lists
        ));
        report(&format!("  calls {:?}", self.calls));
        report(&format!("  answers {:?}", self.refusals));
        report(&format!("  {:?}", self.met));
    }

    /// Every kind of call, every refusal that there is, and what the rules speak of.
    pub fn is_varied(&self) -> bool {
        let met = |what| self.met.get(what).is_some_and(|n| *n > 0);
        self.calls.len() == 22
            && (0..=17)
                .chain([BAD_POLE])
                .all(|n| self.refusals.contains_key(&n))
            && ALL.iter().all(met)
    }
}
