//! A study of a kind, made on the original by the calls of document 01.

use phyz_em::cpml::CpmlConfig;

use crate::call::{Call, Numbers};
use crate::engine::Put;
use crate::engine::block::{Material, Pole};
use crate::fill::{Fill, STORES, Store, tables};
use crate::studies::{Kind, Layer, Wall, Wave};
use crate::theirs::{Theirs, ade_coeffs, built_tables};
use crate::{Mix, Random};

impl Kind {
    /// The original with the study, and its samples. Each store is filled with numbers of the mix after
    /// the calls, but for ids, tables that the original has built, and conductivities of a lossy edge.
    pub fn make(&self, seed: u64) -> (Theirs, Vec<f64>) {
        let mut random = Random::new(seed);
        let slots = self.tags.iter().map(|tags| tags.len()).max().unwrap_or(0);
        let mut theirs = Theirs::open(self.sizes, slots, self.constants, self.spacings);
        for call in self.calls(&mut random, &theirs) {
            accepted(&mut theirs, &call);
        }
        for store in STORES.into_iter().filter(|store| self.fills(*store)) {
            let (seed, mix) = (random.bits(), self.mix);
            accepted(&mut theirs, &Call::Fill(Fill { store, seed, mix }));
        }
        let samples = (0..self.samples).map(|_| random.number(1.0, self.mix));
        (theirs, samples.collect())
    }

    fn fills(&self, store: Store) -> bool {
        match store {
            Store::Ids => false,
            Store::Tables => !matches!(self.layer, Layer::Built(..)),
            Store::Media => !matches!(self.wall, Wall::Lossy),
            _ => true,
        }
    }

    fn calls(&self, random: &mut Random, theirs: &Theirs) -> Vec<Call> {
        let mut calls = vec![self.wall(), Call::SetPeriodic(self.periodic)];
        for (at, tags) in self.tags.iter().enumerate() {
            calls.push(Call::AddMaterial(self.material(random, tags)));
            calls.push(self.placed(random, at + 1));
        }
        if !self.tags.is_empty() {
            calls.push(Call::BuildDispersion);
        }
        calls.extend(self.layer(random, theirs));
        if let Layer::Named(axes) = self.layer {
            calls.push(Call::PutActive(axes));
            calls.push(Call::SetPeriodic(self.periodic));
        }
        calls.extend(self.wave());
        calls.push(Call::PutSteps(self.steps));
        calls
    }

    fn wall(&self) -> Call {
        match self.wall {
            Wall::Conductor => Call::Conductor,
            Wall::Periodic => Call::Periodic,
            Wall::Lossy => Call::Lossy {
                thickness: 1,
                order: 3,
                sigma_max: 2.0,
            },
        }
    }

    /// A material in cells that begin higher up than those of the one before, from any corner to the end.
    fn placed(&self, random: &mut Random, id: usize) -> Call {
        let [nx, ny, nz] = self.sizes;
        let k = id * nz / (self.tags.len() + 1);
        Call::PutBox {
            what: Put::Library(id as u32),
            cells: [random.index(nx), nx, random.index(ny), ny, k, nz],
        }
    }

    fn material(&self, random: &mut Random, tags: &[u8]) -> Material {
        Material {
            eps_inf: 1.0 + random.above_zero(4.0, self.mix),
            sigma: random.above_zero(0.1, self.mix),
            mu_r: 1.0 + random.above_zero(1.0, Mix::ORDINARY),
            pole_count: tags.len() as u8,
            poles: tags.iter().map(|tag| self.pole(random, *tag)).collect(),
        }
    }

    /// One that can be stepped: the original's three numbers are finite.
    fn pole(&self, random: &mut Random, tag: u8) -> Pole {
        loop {
            let pole = self.any_pole(random, tag);
            let coefficients = ade_coeffs(self.constants, &pole, self.spacings[3]);
            if coefficients.iter().all(|a| a.is_finite()) {
                return pole;
            }
        }
    }

    /// Rates below one over dt, so that the polarizations move and do not explode.
    fn any_pole(&self, random: &mut Random, tag: u8) -> Pole {
        let dt = self.spacings[3];
        let rate = random.above_zero(0.3, self.mix) / dt;
        let gamma = random.above_zero(0.3, self.mix) / dt;
        let strength = random.above_zero(3.0, self.mix);
        let numbers = match tag {
            1 => [strength, rate, gamma],
            2 => [rate, gamma, 0.0],
            _ => [strength, 1.0 / gamma, 0.0],
        };
        Pole { tag, numbers }
    }

    fn layer(&self, random: &mut Random, theirs: &Theirs) -> Option<Call> {
        let (axes, thickness) = match self.layer {
            Layer::Absent => return None,
            Layer::Built(axes, thickness) | Layer::Given(axes, thickness) => (axes, thickness),
            Layer::Named(axes) => (axes, 1),
        };
        let given = if let Layer::Built(..) = self.layer {
            let config = CpmlConfig::with_thickness(thickness).on_axes(axes);
            built_tables(&theirs.expected().record().unwrap(), config)
        } else {
            let length = 6 * self.sizes.iter().sum::<usize>();
            tables(random, length, self.mix)
        };
        Some(Call::Cpml {
            axes,
            thickness,
            given: Numbers(given),
        })
    }

    fn wave(&self) -> Option<Call> {
        match self.wave {
            Wave::Absent => None,
            Wave::Slab(k0, k1) => Some(Call::Slab { k0, k1 }),
            Wave::Injector(k0) => Some(Call::Injector { k0 }),
            Wave::Inside(corners) => Some(Call::BoxRegion(corners)),
        }
    }
}

fn accepted(theirs: &mut Theirs, call: &Call) {
    let refusal = theirs.apply(call).refusal;
    assert_eq!(refusal, 0, "{call:?}");
}
