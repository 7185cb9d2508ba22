//! The studies that are timed.

use compare::call::{Call, Numbers};
use compare::engine::Put;
use compare::engine::block::{Material, Pole, Record, Region};
use compare::fill::{Fill, Store};
use compare::theirs::built_tables;
use compare::{Mix, Random, engine};
use phyz_em::cpml::CpmlConfig;

pub struct Timed {
    pub name: &'static str,
    pub target: Option<f64>,
    pub sizes: [usize; 3],
    pub spacings: [f64; 4],
    pub pole_slots: usize,
    /// What sets the study up, after opening.
    pub calls: Vec<Call>,
    /// What the fields start a round with.
    pub fields: Vec<Call>,
    /// Steps in a round, and rounds.
    pub steps: usize,
    pub rounds: usize,
}

const THICKNESS: usize = 8;
const ROUNDS: usize = 8;

pub fn all() -> Vec<Timed> {
    let cube = [64, 64, 64];
    let wide = [128, 128, 64];
    let line = [1, 1, 512];
    let short = [4, 64, 64];
    vec![
        timed("64x64x64 plain, conducting walls", 3.0, cube, 12, |_| {
            vec![Call::Conductor]
        }),
        timed("64x64x64 layer on all axes", 2.5, cube, 12, |t| {
            vec![t.layer([true; 3])]
        }),
        timed(
            "64x64x64 periodic, layer on z, Debye, slab",
            2.5,
            cube,
            12,
            |t| t.sheet(),
        ),
        timed("1x1x512 the same kind", 2.5, line, 4000, |t| t.sheet()),
        timed("128x128x64 layer on all axes", 2.5, wide, 3, |t| {
            vec![t.layer([true; 3])]
        }),
        timed("4x64x64 periodic in x, layer on z", 1.6, short, 150, |t| {
            let periodic = Call::SetPeriodic([true, false, false]);
            vec![periodic, t.layer([false, false, true])]
        }),
    ]
}

/// The studies whose steps are taken one by one too. Of the shortest and the largest no target is set.
pub fn single() -> Vec<Timed> {
    vec![
        timed(
            "1x1x512 periodic, layer on z, Debye, slab",
            1.2,
            [1, 1, 512],
            4000,
            |t| t.sheet(),
        ),
        timed("1x1x64 the same kind", None, [1, 1, 64], 4000, |t| {
            t.sheet()
        }),
        timed("64x64x64 the same kind", None, [64, 64, 64], 12, |t| {
            t.sheet()
        }),
    ]
}

fn timed(
    name: &'static str,
    target: impl Into<Option<f64>>,
    sizes: [usize; 3],
    steps: usize,
    calls: impl Fn(&Timed) -> Vec<Call>,
) -> Timed {
    let (dx, dy, dz) = (1e-3, 1e-3, 1e-3);
    let limit = engine::cichowiej_max_stable_dt(engine::cichowiej_c0(), dx, dy, dz, 1.0);
    let mut study = Timed {
        name,
        target: target.into(),
        sizes,
        spacings: [dx, dy, dz, 0.9 * limit],
        pole_slots: 1,
        calls: Vec::new(),
        fields: ordinary_fields(),
        steps,
        rounds: ROUNDS,
    };
    study.calls = calls(&study);
    study
}

/// Random numbers of an ordinary size in the fields and on the line: nothing is zero or subnormal.
fn ordinary_fields() -> Vec<Call> {
    let mut random = Random::new(1966);
    let stores = [Store::E, Store::H, Store::Aux];
    let fill = |store| Fill {
        store,
        seed: random.bits(),
        mix: Mix::ORDINARY,
    };
    stores.map(fill).map(Call::Fill).to_vec()
}

impl Timed {
    /// The layer with the original's own tables.
    fn layer(&self, axes: [bool; 3]) -> Call {
        let config = CpmlConfig::with_thickness(THICKNESS).on_axes(axes);
        Call::Cpml {
            axes,
            thickness: THICKNESS,
            given: Numbers(built_tables(&self.record(), config)),
        }
    }

    /// A wet sheet across the gap: periodic in x and y, a layer on z, a Debye block, a slab wave.
    fn sheet(&self) -> Vec<Call> {
        let [nx, ny, nz] = self.sizes;
        let water = Material {
            eps_inf: 5.0,
            sigma: 0.1,
            mu_r: 1.0,
            pole_count: 1,
            poles: vec![Pole {
                tag: 3,
                numbers: [70.0, 8e-12, 0.0],
            }],
        };
        vec![
            Call::SetPeriodic([true, true, false]),
            self.layer([false, false, true]),
            Call::AddMaterial(water),
            Call::PutBox {
                what: Put::Library(1),
                cells: [0, nx, 0, ny, nz * 3 / 8, nz * 5 / 8],
            },
            Call::BuildDispersion,
            Call::Slab {
                k0: THICKNESS + 2,
                k1: nz - THICKNESS - 3,
            },
        ]
    }

    fn record(&self) -> Record {
        Record {
            sizes: self.sizes,
            periodic: [false; 3],
            active: [false; 3],
            layer_on: false,
            built_count: 0,
            pole_slots: self.pole_slots as u8,
            material_count: 0,
            region: Region {
                kind: 0,
                corners: [0; 6],
            },
            spacings: self.spacings,
            time: 0.0,
            steps: 0,
            constants: 0,
            materials: Vec::new(),
        }
    }
}
