//! The same calls on the original's grid. The module above says which copy of the original that is.

mod arrays;
mod by_hand;
mod materials;

use super::original;
use original::boundary::BoundaryCondition;
use original::cpml::CpmlConfig;
use original::grid::YeeGrid;
use original::tfsf::Tfsf;

use crate::agree;
use crate::call::Call;
use crate::engine::{Answer, BEFORE, Put, Study};
use crate::{judge, save};

pub use arrays::built_tables;
use arrays::tables_of;
pub use materials::ade_coeffs;
use materials::original_material;

/// A layer thicker than any grid: the original's own reckoning wraps beyond it (docs/DIFFERENCES.md).
const THICK: usize = 1 << 20;

/// The original, and what is expected of the engine. Where the original has no array for a store at
/// the time (memories and tables without a layer, polarizations before they are built and slots that
/// no material uses, the line without a region), `expected` keeps the store by document 01's words.
pub struct Side {
    grid: YeeGrid,
    wave: Option<(u8, Tfsf)>,
    pole_slots: u8,
    built_count: u8,
    constants: u8,
    time: f64,
    steps: u32,
    pub expected: Study,
}

impl Side {
    /// Opens a study. Sizes and spacings are ones that the engine accepts.
    pub fn open(
        sizes: [usize; 3],
        pole_slots: usize,
        constants: usize,
        spacings: [f64; 4],
    ) -> Self {
        let ([nx, ny, nz], [dx, dy, dz, dt]) = (sizes, spacings);
        let mut side = Self {
            grid: YeeGrid::new_rect(nx, ny, nz, dx, dy, dz, dt),
            wave: None,
            pole_slots: pole_slots as u8,
            built_count: 0,
            constants: constants as u8,
            time: 0.0,
            steps: 0,
            expected: Study::lent(sizes, pole_slots),
        };
        side.expected.poles.fill(0.0);
        side.expected.aux.fill(0.0);
        side.open_layer();
        side.read_arrays();
        side.expected.block = side.record().write();
        side
    }

    /// The call on the original, where the papers accept it, and the answer that is expected.
    pub fn apply(&mut self, call: &Call) -> Answer {
        let refusal = judge::refusal(&self.expected, call);
        let further = match refusal {
            0 => self.perform(call),
            _ => 0.0,
        };
        self.read_arrays();
        if refusal == 0 {
            self.write_block(call.written());
        }
        Answer {
            room: self.room(call, refusal),
            ..Answer::new(refusal, further)
        }
    }

    /// The room lent to a save as the call has to leave it.
    fn room(&self, call: &Call, refusal: u32) -> Vec<u8> {
        let Call::Save(length) = call else {
            return Vec::new();
        };
        let mut room = match refusal {
            0 => save::write(&self.expected),
            _ => Vec::new(),
        };
        room.resize(*length, BEFORE);
        room
    }

    /// An accepted call; the number that it answers further.
    fn perform(&mut self, call: &Call) -> f64 {
        let grid = &mut self.grid;
        match call {
            Call::Open {
                sizes,
                pole_slots,
                constants,
                spacings,
            } => *self = Self::open(*sizes, *pole_slots, *constants, *spacings),
            Call::PutBox { cells, what } => {
                let [i0, i1, j0, j1, k0, k1] = *cells;
                match *what {
                    Put::Numbers([eps_r, mu_r, sigma]) => {
                        grid.set_material((i0, i1), (j0, j1), (k0, k1), eps_r, mu_r, sigma);
                    }
                    Put::Library(id) => grid.assign_material_box(id, (i0, i1), (j0, j1), (k0, k1)),
                }
                return set_by_original(self.record().sizes, *cells) as f64;
            }
            Call::AddMaterial(m) => return grid.add_material(original_material(m)).into(),
            Call::AssignHalfspace { id, k0 } => grid.assign_material_halfspace_z(*id, *k0),
            Call::BuildDispersion => self.build_dispersion(),
            Call::SetPeriodic(axes) => grid.set_periodic(*axes),
            Call::Periodic => self.set_boundary(BoundaryCondition::Periodic),
            Call::Conductor => self.set_boundary(BoundaryCondition::PerfectConductor),
            Call::Lossy {
                thickness,
                order,
                sigma_max,
            } => self.set_boundary(BoundaryCondition::LossyAbsorber {
                thickness: *thickness,
                order: *order,
                sigma_max: *sigma_max,
            }),
            Call::Cpml {
                axes,
                thickness,
                given,
            } => return self.set_layer(*axes, *thickness, &given.0),
            Call::Slab { k0, k1 } => self.set_wave(1, Tfsf::slab_z(&self.grid, *k0, *k1)),
            Call::Injector { k0 } => self.set_wave(2, Tfsf::injector_z(&self.grid, *k0)),
            Call::BoxRegion([i0, i1, j0, j1, k0, k1]) => {
                let wave = Tfsf::box_region(&self.grid, *i0, *i1, *j0, *j1, *k0, *k1);
                self.set_wave(3, wave);
            }
            Call::Step(sample) => self.run(&[*sample]),
            Call::Run(samples) => self.run(samples),
            Call::ResetFields => {
                grid.reset_fields();
                self.expected.psi_e.fill(0.0);
                self.expected.psi_h.fill(0.0);
                self.expected.poles.fill(0.0);
            }
            Call::TotalEnergy => return grid.total_energy(),
            Call::PlaneReading(k) => return self.plane_reading(*k),
            Call::SaveLength => return save::length(&self.record()) as f64,
            Call::Save(_) => {}
            Call::Rewind(_) => panic!("the original has no saves to go back to"),
            by_hand => self.write_by_hand(by_hand),
        }
        0.0
    }

    fn build_dispersion(&mut self) {
        self.grid.build_dispersion();
        let built = self.grid.dispersion.is_some();
        self.built_count = if built {
            self.grid.materials.len() as u8
        } else {
            0
        };
        self.expected.poles.fill(0.0);
    }

    fn set_boundary(&mut self, boundary: BoundaryCondition) {
        self.grid.set_boundary(boundary);
        self.open_layer();
    }

    /// The layer; then the given numbers take the place of those that the original has computed for
    /// its active axes. The answer names these.
    fn set_layer(&mut self, axes: [bool; 3], thickness: usize, given: &[f64]) -> f64 {
        let config = CpmlConfig::with_thickness(thickness.min(THICK)).on_axes(axes);
        self.set_boundary(BoundaryCondition::Cpml(config));
        let layer = self.grid.cpml.as_mut().unwrap();
        let mut given = given;
        let mut answer = 0;
        for (axis, bit) in layer.axis.iter_mut().zip([1, 2, 4]) {
            let active = axis.active;
            for table in tables_of(axis) {
                let (own, rest) = given.split_at(table.len());
                given = rest;
                if active {
                    table.copy_from_slice(own);
                }
            }
            answer += if active { bit } else { 0 };
        }
        f64::from(answer)
    }

    fn set_wave(&mut self, kind: u8, wave: Tfsf) {
        self.time = wave.aux.time;
        self.wave = Some((kind, wave));
    }

    /// The steps alone, without a look at what they leave.
    pub fn run(&mut self, samples: &[f64]) {
        for sample in samples {
            let after = self.time + self.grid.dt;
            match &mut self.wave {
                Some((_, wave)) => wave.step(&mut self.grid, &|time| {
                    assert!(agree(time, after));
                    *sample
                }),
                None => {
                    self.grid.update_h_field();
                    self.grid.update_e_field();
                }
            }
            self.time = after;
            self.steps += 1;
        }
    }

    /// The original has no such reading: document 01's words.
    fn plane_reading(&self, k: usize) -> f64 {
        let mut sum = 0.0;
        for j in 0..self.grid.ny {
            for i in 0..self.grid.nx {
                sum += self.grid.ex.get(i, j, k) * self.grid.hy.get(i, j, k);
            }
        }
        sum * (self.grid.dx * self.grid.dy)
    }

    /// Memories and tables as opening leaves them.
    fn open_layer(&mut self) {
        self.expected.psi_e.fill(0.0);
        self.expected.psi_h.fill(0.0);
        let off = phyz_em::cpml::CpmlConfig::default().on_axes([false; 3]);
        self.expected.tables = built_tables(&self.record(), &off);
    }
}

/// How many cells of a fresh grid the original sets: those that then have a number that none had.
fn set_by_original([nx, ny, nz]: [usize; 3], [i0, i1, j0, j1, k0, k1]: [usize; 6]) -> usize {
    let mut fresh = YeeGrid::new_rect(nx, ny, nz, 1.0, 1.0, 1.0, 1.0);
    fresh.set_material((i0, i1), (j0, j1), (k0, k1), 7.0, 1.0, 0.0);
    let cells = (0..nz).flat_map(|k| (0..ny).flat_map(move |j| (0..nx).map(move |i| (i, j, k))));
    cells
        .filter(|(i, j, k)| fresh.eps_r.get(*i, *j, *k) == 7.0)
        .count()
}
