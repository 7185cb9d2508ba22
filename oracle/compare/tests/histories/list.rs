//! A random list of calls, made turn by turn.

use crate::run::{Run, Saved};
use crate::tally::{FOREIGN_POLE, Tally};
use compare::call::{Bytes, Call};
use compare::choose::Chooser;
use compare::damage::{DAMAGES, Sound};
use compare::engine::block::{LENGTH, Material, Pole, Record};
use compare::engine::{Put, Study};
use compare::judge::poles::first_bad;
use compare::poles::ruined;
use compare::{Random, judge, save, sound};

pub struct List {
    pub run: Run,
    pub random: Random,
    pub chooser: Chooser,
    /// Calls since the last opening.
    done: u64,
    pub tally: Tally,
}

impl List {
    /// Opened, with nothing done yet.
    pub fn new(seed: u64, tally: Tally) -> Self {
        let mut random = Random::new(seed);
        let mut list = Self {
            run: Run::default(),
            chooser: Chooser::new(&mut random),
            random,
            done: 0,
            tally,
        };
        list.open_anew();
        list
    }

    /// A call on what stands, or on what is lent.
    fn make(&mut self, call: Call, lent: Option<Study>) {
        let opens = matches!(call, Call::Open { .. });
        let begins = opens || matches!(call, Call::Rewind(_));
        let refusal = self.run.make(call, lent, &mut self.tally);
        self.done = if opens { 0 } else { self.done + 1 };
        if begins && refusal == 0 {
            let record = self.run.study().record().unwrap();
            self.chooser.sizes = record.sizes;
            self.chooser.pole_slots = record.pole_slots.into();
            self.chooser.constants = record.constants.into();
            self.chooser.spacings = record.spacings;
        }
    }

    pub fn turn(&mut self) {
        match self.random.below(50) {
            0..=2 => self.save(),
            3 | 4 => self.save_again(),
            5..=8 => self.rewind(),
            9 => self.open_anew(),
            10 => self.make(self.chooser.opening(), None),
            11..=14 => self.foreign(),
            15 | 16 => self.damaged(),
            17 | 18 => self.wrong(),
            19..=26 => self.steps(),
            _ => self.ordinary(),
        }
    }

    /// A call that a chooser comes by; none of the caller's own writing.
    pub fn call(&mut self) -> Call {
        let record = self.run.study().record().unwrap();
        loop {
            let call = self.chooser.next(&mut self.random, &record, self.done);
            if !call.is_by_hand() {
                return call;
            }
        }
    }

    fn ordinary(&mut self) {
        let call = self.call();
        self.make(call, None);
    }

    /// One step, or so many that the wave comes from its source into the grid.
    fn steps(&mut self) {
        let count = [1, 30 + self.random.index(30)][self.random.index(2)];
        let mut samples = vec![0.0; count];
        samples.fill_with(|| self.random.number(1.0, self.chooser.mix));
        let call = match samples[..] {
            [sample] => Call::Step(sample),
            _ => Call::Run(samples),
        };
        self.make(call, None);
    }

    fn save(&mut self) {
        let record = self.run.study().record().unwrap();
        let call = self.chooser.save(&mut self.random, &record);
        self.make(call, None);
    }

    /// Twice the same bytes: a reading or a refused call stands between. Often it is then gone back to
    /// them, after another call or two.
    fn save_again(&mut self) {
        let record = self.run.study().record().unwrap();
        let (length, nz) = (save::length(&record), record.sizes[2]);
        self.make(Call::Save(length), None);
        match self.random.below(5) {
            0 => self.make(Call::TotalEnergy, None),
            1 => self.make(Call::SaveLength, None),
            2 => {
                let k = self.random.index(nz);
                self.make(Call::PlaneReading(k), None);
            }
            3 => self.wrong(),
            _ => {}
        }
        self.make(Call::Save(length), None);
        if self.random.once_in(2) {
            let saved = self.run.saves.last().unwrap().clone();
            for _ in 0..1 + self.random.below(2) {
                self.ordinary();
            }
            self.back_to(&saved);
        }
    }

    fn rewind(&mut self) {
        let count = self.run.saves.len();
        if count == 0 {
            return self.save();
        }
        let at = match self.random.once_in(3) {
            true => count - 1,
            false => self.random.index(count),
        };
        let saved = self.run.saves[at].clone();
        self.back_to(&saved);
    }

    /// Over what stands, where it fits, or over noise; once in a while with a store too short.
    fn back_to(&mut self, saved: &Saved) {
        let call = Call::Rewind(Bytes(saved.bytes.clone()));
        let fits = judge::refusal(self.run.study(), &call) == 0;
        if fits && self.random.once_in(2) {
            return self.make(call, None);
        }
        let mut noise = sound::noise(&mut self.random, saved.sizes, saved.pole_slots);
        if self.random.once_in(8) {
            spoil_a_store(&mut self.random, &mut noise);
        }
        self.make(call, Some(noise));
    }

    /// Another study, over noise; most of the time with a wave that can come in.
    fn open_anew(&mut self) {
        let mut chooser = Chooser::new(&mut self.random);
        chooser.sizes = few(&mut self.random);
        let noise = sound::noise(&mut self.random, chooser.sizes, chooser.pole_slots);
        self.chooser = chooser;
        self.make(self.chooser.opening(), Some(noise));
        if !self.random.once_in(4) {
            let k0 = self.random.index(self.chooser.sizes[2]);
            self.make(Call::Injector { k0 }, None);
            self.make(Call::SetPeriodic([true, true, false]), None);
        }
    }

    /// On a block or stores of nobody: refused, or else made on what stands.
    fn foreign(&mut self) {
        let call = self.call();
        let mut lent = self.run.study().clone();
        spoil(&mut self.random, &mut lent);
        let refused = judge::refusal(&lent, &call) != 0;
        let bad_pole = lent.record().is_some_and(|r| first_bad(&r).is_some());
        self.tally.meet(FOREIGN_POLE, (refused && bad_pole).into());
        self.make(call, refused.then_some(lent));
    }

    /// To a save that is damaged: refused, or else left.
    fn damaged(&mut self) {
        let damage = DAMAGES[self.random.index(DAMAGES.len())];
        let sound = Sound::any(&mut self.random, self.run.study());
        let bytes = sound.damaged(&mut self.random, damage, &sound);
        let call = Call::Rewind(Bytes(bytes));
        if judge::refusal(self.run.study(), &call) != 0 {
            self.make(call, None);
        }
    }

    /// An argument that cannot be.
    fn wrong(&mut self) {
        let calls = wrong(&self.run.study().record().unwrap());
        let call = calls[self.random.index(calls.len())].clone();
        self.make(call, None);
    }
}

/// Calls that are refused for an argument alone, whatever stands.
fn wrong(record: &Record) -> [Call; 11] {
    let (sizes, spacings) = (record.sizes, record.spacings);
    let pole_slots = usize::from(record.pole_slots);
    let open = |sizes, pole_slots, constants, spacings| Call::Open {
        sizes,
        pole_slots,
        constants,
        spacings,
    };
    let with_poles = |count, tau| {
        let pole = Pole {
            tag: 3,
            numbers: [1.0, tau, 0.0],
        };
        Call::AddMaterial(Material {
            eps_inf: 1.0,
            sigma: 0.0,
            mu_r: 1.0,
            pole_count: count as u8,
            poles: vec![pole; count],
        })
    };
    [
        open([sizes[0], 0, 513], pole_slots, 0, spacings),
        open(sizes, pole_slots, 1, [1.0, 1.0, 1.0, f64::NAN]),
        open(sizes, 5, 0, spacings),
        open(sizes, pole_slots, 2, spacings),
        with_poles(pole_slots + 1, 1.0),
        with_poles(pole_slots.max(1), 0.0),
        Call::PutBox {
            what: Put::Library(record.material_count.into()),
            cells: [0; 6],
        },
        Call::Slab {
            k0: 0,
            k1: sizes[2],
        },
        Call::Lossy {
            thickness: 1,
            order: 9,
            sigma_max: 1.0,
        },
        Call::PlaneReading(sizes[2]),
        Call::Save(save::length(record) - 1),
    ]
}

/// Few cells, some of them enough for an active layer.
fn few(random: &mut Random) -> [usize; 3] {
    [0; 3].map(|_| [1, 1, 2, 3, 4, 5][random.index(6)])
}

/// A block or a store as no call of the run has left it.
fn spoil(random: &mut Random, study: &mut Study) {
    let mut record = study.record().unwrap();
    match random.below(10) {
        0 => study.block.fill_with(|| random.bits() as u8),
        1 => study.block.truncate(random.index(LENGTH)),
        2 => study.block[random.index(LENGTH)] ^= 1 << random.below(8),
        3 => study.put_steps(u32::MAX),
        8 => study.put_constants(2 + random.index(254) as u8),
        9 => {
            if let Some((id, material)) = ruined(random, &record, sound::ODD) {
                study.put_material(id, material);
            }
        }
        4 => spoil_a_store(random, study),
        5 => {
            record.material_count = 16;
            let vacuum = record.materials[0].clone();
            record.materials.resize(16, vacuum);
            study.block = record.write();
        }
        6 => {
            record.sizes[random.index(3)] = 600;
            study.block = record.write();
        }
        _ => study.ids.fill(u32::MAX),
    }
}

fn spoil_a_store(random: &mut Random, study: &mut Study) {
    match random.index(9) {
        8 => study.ids.push(0),
        store => drop(study.stores_mut()[store].pop()),
    }
}
