//! Which study, and which call comes next.

use crate::call::{Call, Numbers};
use crate::engine::Put;
use crate::engine::block::{Material, Record, Region};
use crate::fill::{Fill, STORES, Store, tables};
use crate::judge::poles::first_bad;
use crate::poles::{Poles, ruined};
#[cfg(original)]
use crate::theirs::built_tables;
use crate::{Mix, Random, engine, save};
#[cfg(original)]
use phyz_em::cpml::CpmlConfig;

const LARGEST_SIDE: u64 = 12;
/// Sides longer than this one have a share of their own, and then the other two are cut to few cells.
pub const LONG_SIDE: usize = 24;
const FEW: usize = 5;

/// The engine moves rows of fewer cells than this one by one, and longer ones in passes: both are to be met.
pub const LONG_ROW: usize = 16;
/// The powers that the original's `powi` takes as document 01 does: 7 parts (docs/DIFFERENCES.md).
const ORDERS: [usize; 8] = [0, 1, 2, 3, 4, 5, 6, 8];

/// What holds for a whole study: sizes, spacings, the number of calls, which numbers, and how often
/// calls are ones that the engine refuses.
pub struct Chooser {
    pub sizes: [usize; 3],
    pub pole_slots: usize,
    pub constants: usize,
    pub spacings: [f64; 4],
    pub calls: u64,
    pub mix: Mix,
    /// Materials that are added before anything else.
    library: u64,
    setup: u64,
    refused: u64,
}

impl Chooser {
    pub fn new(random: &mut Random) -> Self {
        // Among zeros the sign of each one counts, and stays for several steps.
        let mix = Mix {
            odd: [0, 0, 5, 50, 500][random.index(5)],
            zeros: [0, 0, 0, 300, 950][random.index(5)],
        };
        let least = if random.once_in(3) { 4 } else { 1 };
        let mut sizes = [0; 3].map(|_| side(random).max(least));
        match random.below(9) {
            0 | 1 => sizes[row_axis(&sizes)] = LONG_ROW + random.index(9),
            2 => {
                sizes = sizes.map(|n| n.min(FEW));
                let axis = [row_axis(&sizes), random.index(3)][random.index(2)];
                sizes[axis] = LONG_SIDE + 1 + random.index(40);
            }
            _ => {}
        }
        Self {
            sizes,
            pole_slots: random.index(5),
            constants: random.index(2),
            spacings: spacings(random, mix),
            calls: 10 + random.below(30),
            mix,
            library: [0, 0, 0, 4, 15][random.index(5)],
            setup: random.below(12),
            refused: [1000, 40, 10][random.index(3)],
        }
    }

    pub fn opening(&self) -> Call {
        Call::Open {
            sizes: self.sizes,
            pole_slots: self.pole_slots,
            constants: self.constants,
            spacings: self.spacings,
        }
    }

    /// The same once more with either set of constants; now and then with a number that names none.
    fn opening_anew(&self, random: &mut Random) -> Call {
        let constants = match random.once_in(self.refused) {
            true => [2, 3, 255, 256, 257, 1 << 32, usize::MAX][random.index(7)],
            false => random.index(2),
        };
        Call::Open {
            sizes: self.sizes,
            pole_slots: self.pole_slots,
            constants,
            spacings: self.spacings,
        }
    }

    /// What comes before all else in an opened study: materials, and something in every store.
    pub fn first(&self, random: &mut Random) -> Vec<Call> {
        let constants = self.constants as u8;
        let materials =
            (0..self.library).map(|_| Call::AddMaterial(self.material(random, constants)));
        let mut calls: Vec<Call> = materials.collect();
        calls.extend(STORES.map(|store| {
            let (seed, mix) = (random.bits(), self.mix);
            Call::Fill(Fill { store, seed, mix })
        }));
        calls
    }

    /// The call after `done` others; the first few set things up, and no step is among them. A record that is refused
    /// for a pole is mended after a few calls.
    pub fn next(&self, random: &mut Random, record: &Record, done: u64) -> Call {
        if random.once_in(4)
            && let Some(mending) = self.mending(random, record)
        {
            return mending;
        }
        let kind = match done < self.setup {
            true => 15 + random.below(17),
            false => random.below(45),
        };
        match kind {
            0..=12 => Call::Step(random.number(1.0, self.mix)),
            13 | 14 => {
                let samples = 1 + random.below(4);
                Call::Run((0..samples).map(|_| random.number(1.0, self.mix)).collect())
            }
            15 | 16 => Call::AddMaterial(self.material(random, record.constants)),
            17 | 18 => Call::PutBox {
                what: Put::Library(self.id(random, record)),
                cells: self.cells(random),
            },
            19 => Call::AssignHalfspace {
                id: self.id(random, record),
                k0: self.end(random, self.sizes[2]),
            },
            20 => Call::PutBox {
                cells: self.cells(random),
                what: Put::Numbers(self.medium(random)),
            },
            21 | 22 => Call::BuildDispersion,
            23 => Call::SetPeriodic(axes(random)),
            24 => [Call::Periodic, Call::Conductor][random.index(2)].clone(),
            25 => self.lossy(random),
            26..=28 => self.layer(random, record),
            29..=31 => self.region(random),
            32 if random.once_in(3) => Call::ResetFields,
            32 => Call::TotalEnergy,
            33 => Call::PlaneReading(self.place(random, self.sizes[2])),
            34..=37 => self.by_hand(random, record),
            38..=42 => Call::Fill(Fill {
                store: store(random, record),
                seed: random.bits(),
                mix: self.mix,
            }),
            43 => Call::SaveLength,
            _ => self.save(random, record),
        }
    }

    /// Something put into the block that no call leaves there, or a study opened anew.
    fn by_hand(&self, random: &mut Random, record: &Record) -> Call {
        match random.below(19) {
            0..=3 if record.layer_on => Call::PutActive(axes(random)),
            0..=4 => self.put_steps(random),
            5 => Call::PutTime(random.number(1e-9, self.mix)),
            6 | 7 => Call::PutTime([random.odd(), random.nan()][random.index(2)]),
            8..=10 => self.put_built(random, record),
            11..=13 => Call::PutRegion(self.any_region(random)),
            14 => self.put_material(random, record),
            15 => Call::PutConstants(random.index(2) as u8),
            16 | 17 => self.ruin_material(random, record),
            _ => self.opening_anew(random),
        }
    }

    /// Any number of steps, sometimes close to the last.
    fn put_steps(&self, random: &mut Random) -> Call {
        Call::PutSteps(match random.below(8) {
            0 => u32::MAX - random.below(4) as u32,
            _ => random.bits() as u32 >> random.below(32),
        })
    }

    /// All materials built, some of them, or none.
    fn put_built(&self, random: &mut Random, record: &Record) -> Call {
        let count = record.material_count;
        Call::PutBuilt(match random.below(3) {
            0 => count,
            _ => random.below(u64::from(count) + 1) as u8,
        })
    }

    /// Another material in the place of one that stands; the first has no poles.
    fn put_material(&self, random: &mut Random, record: &Record) -> Call {
        let id = random.index(record.material_count.into());
        let count = match id {
            0 => 0,
            _ => random.index(self.pole_slots + 1),
        };
        let material = self.material_of(random, count, record.constants);
        Call::PutMaterial { id, material }
    }

    /// A pole that cannot be stepped in a material that stands, where one may have a pole.
    fn ruin_material(&self, random: &mut Random, record: &Record) -> Call {
        match ruined(random, record, self.mix) {
            Some((id, material)) => Call::PutMaterial { id, material },
            None => self.put_material(random, record),
        }
    }

    /// Another material in the place of the first that has a pole which cannot be stepped.
    pub fn mending(&self, random: &mut Random, record: &Record) -> Option<Call> {
        let id = first_bad(record)?;
        let count = record.materials[id].poles.len();
        let material = self.material_of(random, count, record.constants);
        Some(Call::PutMaterial { id, material })
    }

    /// A region of any kind, or none, with any corners inside.
    fn any_region(&self, random: &mut Random) -> Region {
        let kind = [0, 1, 1, 1, 2, 2, 3][random.index(7)];
        let mut corners = [0; 6];
        if kind != 0 {
            for (pair, n) in corners.chunks_mut(2).zip(self.sizes) {
                let ends = [0, random.index(n), random.index(n), n - 1];
                pair.fill_with(|| ends[random.index(4)]);
                pair.sort();
            }
        }
        Region { kind, corners }
    }

    /// Into room of the save's length, or of some more bytes; once in a while of fewer.
    pub fn save(&self, random: &mut Random, record: &Record) -> Call {
        let length = save::length(record);
        Call::Save(match random.below(self.refused.min(20)) {
            0 => [0, length / 2, length - 1][random.index(3)],
            1 | 2 => length + 1 + random.index(9),
            _ => length,
        })
    }

    /// A place on an axis of n cells; once in a while one beyond it.
    fn place(&self, random: &mut Random, n: usize) -> usize {
        if random.once_in(self.refused) {
            return beyond(random, n);
        }
        random.index(n)
    }

    /// Where a range of cells starts or ends: on the axis, or beyond it.
    fn end(&self, random: &mut Random, n: usize) -> usize {
        match random.below(12) {
            0 => beyond(random, n),
            1 | 2 => 0,
            3 | 4 => n,
            _ => random.index(n + 1),
        }
    }

    /// A box of cells, now and then empty, backward or past the grid.
    fn cells(&self, random: &mut Random) -> [usize; 6] {
        let mut cells = [0; 6];
        for (axis, pair) in cells.chunks_mut(2).enumerate() {
            pair.fill_with(|| self.end(random, self.sizes[axis]));
            if !random.once_in(6) {
                pair.sort();
            }
        }
        cells
    }

    fn id(&self, random: &mut Random, record: &Record) -> u32 {
        let count = u32::from(record.material_count);
        if random.once_in(self.refused) {
            return [count, count + 1, u32::MAX][random.index(3)];
        }
        random.below(count.into()) as u32
    }

    fn medium(&self, random: &mut Random) -> [f64; 3] {
        [
            random.above_one(4.0, self.mix),
            random.above_one(1.0, self.mix),
            random.above_zero(0.1, self.mix),
        ]
    }

    /// Now and then with more poles than slots, or with a pole that cannot be stepped.
    fn material(&self, random: &mut Random, constants: u8) -> Material {
        let count = match random.once_in(self.refused) {
            true => self.pole_slots + 1 + random.index(5 - self.pole_slots.min(4)),
            false => random.index(self.pole_slots + 1),
        };
        let mut material = self.material_of(random, count, constants);
        if count != 0 && random.once_in(self.refused) {
            material.poles[random.index(count)] = self.poles(constants).bad(random);
        }
        material
    }

    fn material_of(&self, random: &mut Random, count: usize, constants: u8) -> Material {
        let [eps_inf, mu_r, sigma] = self.medium(random);
        let poles = self.poles(constants);
        Material {
            eps_inf,
            sigma,
            mu_r,
            pole_count: count as u8,
            poles: (0..count).map(|_| poles.good(random)).collect(),
        }
    }

    fn poles(&self, constants: u8) -> Poles {
        Poles {
            dt: self.spacings[3],
            constants,
            mix: self.mix,
        }
    }

    fn lossy(&self, random: &mut Random) -> Call {
        let order = match random.once_in(self.refused) {
            true => [9, 10, 1 << 40][random.index(3)],
            false => ORDERS[random.index(ORDERS.len())],
        };
        // A wall value of -0.0 is left open by `f64::max` (docs/DIFFERENCES.md): no negative number
        // that a power of a ratio could bring down to it.
        let sigma_max = match random.number(8.0, self.mix) {
            x if x.is_sign_negative() && x > -1e-200 => -x,
            x => x,
        };
        Call::Lossy {
            thickness: thickness(random),
            order,
            sigma_max,
        }
    }

    /// The layer with the original's own tables or with any numbers; axes that are not asked for
    /// are handed numbers too, which must go nowhere. Where the original is not there, any numbers.
    #[cfg_attr(not(original), allow(unused))]
    fn layer(&self, random: &mut Random, record: &Record) -> Call {
        let (axes, thickness) = (axes(random), thickness(random));
        let length = 6 * self.sizes.iter().sum::<usize>();
        let mut given = tables(random, length, self.mix);
        #[cfg(original)]
        if random.once_in(2) {
            self.build(random, record, axes, thickness, &mut given);
        }
        Call::Cpml {
            axes,
            thickness,
            given: Numbers(given),
        }
    }

    /// The original's own tables in place of those of the axes that are asked for.
    #[cfg(original)]
    fn build(
        &self,
        random: &mut Random,
        record: &Record,
        axes: [bool; 3],
        thickness: usize,
        given: &mut [f64],
    ) {
        let config = CpmlConfig {
            order: [2.0, 3.0, 3.5, 4.0][random.index(4)],
            kappa_max: 1.0 + random.above_zero(9.0, Mix::ORDINARY),
            alpha_factor: random.above_zero(1.0, Mix::ORDINARY),
            ..CpmlConfig::with_thickness(thickness).on_axes(axes)
        };
        let built = built_tables(record, config);
        let mut at = 0;
        for (n, asked) in self.sizes.into_iter().zip(axes) {
            if asked {
                given[at..at + 6 * n].copy_from_slice(&built[at..at + 6 * n]);
            }
            at += 6 * n;
        }
    }

    /// Corners are often on a wall, where the corrections write.
    fn corners(&self, random: &mut Random, n: usize) -> [usize; 2] {
        let k0 = match random.below(3) {
            0 => 0,
            _ => self.place(random, n),
        };
        let k1 = match random.below(3) {
            0 => n - 1,
            _ => self.place(random, n),
        };
        match random.once_in(self.refused) {
            true => [k0, k1],
            false => [k0.min(k1), k0.max(k1)],
        }
    }

    fn region(&self, random: &mut Random) -> Call {
        let [[i0, i1], [j0, j1], [k0, k1]] = self.sizes.map(|n| self.corners(random, n));
        match random.below(3) {
            0 => Call::Slab { k0, k1 },
            1 => Call::Injector { k0 },
            _ => Call::BoxRegion([i0, i1, j0, j1, k0, k1]),
        }
    }
}

/// A store to be filled: more often one that a call has cleared and a step reads.
fn store(random: &mut Random, record: &Record) -> Store {
    let read = [
        (record.layer_on, Store::PsiE),
        (record.layer_on, Store::PsiH),
        (record.built_count != 0, Store::Poles),
        (record.region.kind != 0, Store::Aux),
    ];
    let (is_read, store) = read[random.index(read.len())];
    if is_read && random.once_in(2) {
        return store;
    }
    STORES[random.index(STORES.len())]
}

fn axes(random: &mut Random) -> [bool; 3] {
    let bits = if random.once_in(4) { 7 } else { random.bits() };
    [1, 2, 4].map(|bit| bits & bit != 0)
}

/// Often one cell; else up to the largest side.
fn side(random: &mut Random) -> usize {
    match random.below(4) {
        0 => 1,
        1 => 1 + random.index(3),
        _ => 1 + random.below(LARGEST_SIDE) as usize,
    }
}

/// The axis that the engine's rows lie along: the first that is longer than one cell, or else z.
pub fn row_axis(sizes: &[usize; 3]) -> usize {
    sizes.iter().position(|n| *n > 1).unwrap_or(2)
}

fn beyond(random: &mut Random, n: usize) -> usize {
    [n, n + 1, 1 << 16, 1 << 32, usize::MAX][random.index(5)]
}

/// Thin enough to be active on many grids; now and then none, or beyond all bounds.
fn thickness(random: &mut Random) -> usize {
    match random.below(12) {
        0 => 0,
        1 => [1 << 20, 1 << 63, usize::MAX, usize::MAX / 2][random.index(4)],
        2 | 3 => 3 + random.index(4),
        _ => 1 + random.index(2),
    }
}

/// Cells of about a millimetre and a time step near the limit; in some of the odd studies, any sizes.
fn spacings(random: &mut Random, mix: Mix) -> [f64; 4] {
    if mix.odd != 0 && random.once_in(3) {
        return [0; 4].map(|_| match random.below(4) {
            0 => random.with_field(1, 2046),
            1 => f64::from_bits(1 + random.below(1 << 52)),
            _ => random.with_field(950, 1050),
        });
    }
    let [dx, dy, dz] = [0; 3].map(|_| 1e-3 * (1.0 + random.above_zero(1.0, Mix::ORDINARY)));
    let limit = engine::cichowiej_max_stable_dt(engine::cichowiej_c0(), dx, dy, dz, 1.0);
    [dx, dy, dz, limit * random.unit().abs()]
}
