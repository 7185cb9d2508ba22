//! What the random studies came by of poles that can be stepped and of poles that cannot.

use std::collections::BTreeMap;

use super::tally::add;
use crate::call::Call;
use crate::engine::Study;
use crate::engine::block::{MATERIALS, Material, PLACES, Pole, Record};
use crate::judge::poles::{all_pass, first_bad, passes};
use crate::judge::{BAD_POLE, TOO_MANY_POLES};
use crate::poles::{fault, used};
use crate::report;

#[derive(Default)]
pub struct PoleTally {
    /// Those of materials that a cell has and that are built, once for each step.
    stepped: BTreeMap<&'static str, u64>,
    /// Materials that were to be added with one that cannot be stepped, by what is wrong with it.
    materials: BTreeMap<&'static str, u64>,
    /// By what the caller wrote: records that had none which cannot be stepped, and then have.
    records: BTreeMap<String, u64>,
    /// Calls of the engine on such a record.
    on_record: BTreeMap<String, u64>,
    /// Whether the record had one before the call at hand.
    before: bool,
}

impl PoleTally {
    /// Counts a call by the record that it gets.
    pub fn count_record(&mut self, call: &Call, record: &Record) {
        self.before = first_bad(record).is_some();
        if self.before && !call.is_by_hand() {
            *self.on_record.entry(call.name()).or_default() += 1;
        }
    }

    /// Counts a call by what has come of it.
    pub fn count(&mut self, call: &Call, refusal: u32, study: &Study) {
        let record = study.record().unwrap();
        if !self.before && first_bad(&record).is_some() {
            *self.records.entry(call.name()).or_default() += 1;
        }
        match (call, refusal) {
            (Call::AddMaterial(material), _) => self.count_material(material, refusal, &record),
            (Call::Step(_), 0) => self.count_steps(1, &record, &study.ids),
            (Call::Run(samples), 0) => self.count_steps(samples.len(), &record, &study.ids),
            _ => {}
        }
    }

    fn count_material(&mut self, material: &Material, refusal: u32, record: &Record) {
        let (constants, dt) = (record.constants, record.spacings[3]);
        let mut places = material.poles.iter().take(PLACES);
        let Some(bad) = places.find(|pole| !passes(pole, constants, dt)) else {
            return;
        };
        let full = usize::from(record.material_count) == MATERIALS;
        let others = Record {
            constants: 1 - constants,
            ..record.clone()
        };
        let kinds = [
            ("all that were refused as 19", refusal == BAD_POLE),
            (fault(bad, dt), refusal == BAD_POLE),
            ("with 16 materials standing", refusal == BAD_POLE && full),
            (
                "which the other constants accept",
                refusal == BAD_POLE && all_pass(material, &others),
            ),
            (
                "with more poles than slots, refused as 6",
                refusal == TOO_MANY_POLES,
            ),
        ];
        count(kinds, 1, &mut self.materials);
    }

    fn count_steps(&mut self, steps: usize, record: &Record, ids: &[u32]) {
        let built = &record.materials[..record.built_count.into()];
        let met = (0..).zip(built).filter(|(id, _)| ids.contains(id));
        for pole in met.flat_map(|(_, material)| &material.poles) {
            count(stepped_kinds(pole, record), steps, &mut self.stepped);
        }
    }

    /// Takes in what another one has counted.
    pub fn join(&mut self, other: Self) {
        add(&mut self.stepped, other.stepped);
        add(&mut self.materials, other.materials);
        add(&mut self.records, other.records);
        add(&mut self.on_record, other.on_record);
    }

    pub fn report(&self) {
        report(&format!("  poles stepped {:?}", self.stepped));
        report("  with a pole that cannot be stepped");
        report(&format!("    materials {:?}", self.materials));
        report(&format!("    records {:?}", self.records));
        report(&format!("    calls on these {:?}", self.on_record));
    }

    /// Every kind was there, and every call of the engine on a record with a pole that cannot be stepped.
    pub fn is_varied(&self, of_the_engine: usize) -> bool {
        self.stepped.len() == 8
            && self.materials.len() == 9
            && self.records.len() == 2
            && self.on_record.len() == of_the_engine
    }
}

fn stepped_kinds(pole: &Pole, record: &Record) -> [(&'static str, bool); 8] {
    let any = |kind: fn(&f64) -> bool| used(pole).iter().any(kind);
    let by_others = passes(pole, 1 - record.constants, record.spacings[3]);
    [
        ("all", true),
        ("Lorentz", pole.tag == 1),
        ("Drude", pole.tag == 2),
        ("Debye", pole.tag == 3),
        ("with a zero", any(|x| *x == 0.0)),
        ("with a subnormal", any(|x| x.is_subnormal())),
        ("with an infinite tau", any(|x| x.is_infinite())),
        ("which the other constants refuse", !by_others),
    ]
}

fn count<const N: usize>(
    kinds: [(&'static str, bool); N],
    times: usize,
    counts: &mut BTreeMap<&'static str, u64>,
) {
    for (name, _) in kinds.into_iter().filter(|(_, holds)| *holds) {
        *counts.entry(name).or_default() += times as u64;
    }
}
