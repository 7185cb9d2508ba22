//! A study that owns its record and its stores, with a method for each call.

use crate::absorber::{CpmlConfig, tables};
use crate::bindings::{self, Lent, cichowiej_cfl_number};
use crate::constants::Constants;
use crate::material::Material;
use crate::maths;
use crate::refusal::Refusal;
use crate::stores::{BLOCK_LENGTH, LINE_PAD, MATERIAL_LENGTH, MAX_POLE_SLOTS, MOST_MATERIALS, bytes, lent, sizes_fit};
use std::f64::consts::PI;

/// What a study is opened with: cells along x, y and z, their sizes in m, the time step in s, how many poles a material may have, and which constants it has.
#[derive(Debug, Clone, Copy, PartialEq)]
pub struct Grid {
    pub cells: [usize; 3],
    pub pitch: [f64; 3],
    pub dt: f64,
    pub pole_slots: usize,
    pub constants: Constants,
}

impl Grid {
    /// The Courant number c Δt √(1/Δx² + 1/Δy² + 1/Δz²). `courant_limit` says up to which one a step is stable.
    pub fn courant_number(&self) -> f64 {
        let [dx, dy, dz] = self.pitch;
        cichowiej_cfl_number(self.constants.c0(), dx, dy, dz, self.dt)
    }

    /// The Courant number up to which a step is stable in vacuum, with these axes periodic and walls at the ends of the others: √(Σ 1/Δ²) / √(Σ s²/Δ²), s the
    /// sine of half the angle by which the shortest wave along an axis turns from cell to cell. It is 1 or more. An axis on which nothing can differ has s = 0:
    /// one periodic cell, and one or two cells between walls, where the electric field along the walls is 0. (With one such cell the magnetic field along them
    /// is moved by the incident wave alone: nothing runs in the grid.)
    pub fn courant_limit(&self, periodic: [bool; 3]) -> f64 {
        let sharpest = [0, 1, 2].map(|axis| sharpest(self.cells[axis], periodic[axis]));
        self.sharpness([1.0; 3]) / self.sharpness(sharpest)
    }

    /// The same of the incident wave, which has a long line of its own along z.
    pub fn line_limit(&self) -> f64 {
        self.sharpness([1.0; 3]) / self.sharpness([0.0, 0.0, 1.0])
    }

    fn sharpness(&self, sines: [f64; 3]) -> f64 {
        let parts = [0, 1, 2].map(|axis| (sines[axis] / self.pitch[axis]).powi(2));
        parts.iter().sum::<f64>().sqrt()
    }

    /// The bytes of memory that a study of this grid takes; 0 for sizes that no study has.
    pub fn memory(&self) -> u64 {
        if sizes_fit(self.cells) && self.pole_slots <= MAX_POLE_SLOTS { bytes(self.cells, self.pole_slots) } else { 0 }
    }

    /// The highest frequency in Hz that the grid carries in vacuum, by the dispersion of Yee's scheme: sin(π f Δt) = c Δt √(Σ 1/Δ²) for the shortest waves, the
    /// sum over the axes with more than one cell. What a source has above it does not get away from its plane.
    pub fn cutoff_frequency(&self) -> f64 {
        let axes = self.pitch.into_iter().zip(self.cells).filter(|(_, n)| *n > 1);
        let sum: f64 = axes.map(|(d, _)| 1.0 / (d * d)).sum();
        let sine = self.constants.c0() * self.dt * sum.sqrt();
        maths::asin(sine.min(1.0)) / (PI * self.dt)
    }
}

/// The sine of half the largest angle by which a wave turns from cell to cell along an axis of n cells: on a periodic one it turns n times by a whole of n-ths of
/// 2π, and between walls, which stand on the first and the last cell, n - 1 times by a whole of such parts of π.
fn sharpest(n: usize, periodic: bool) -> f64 {
    let (turns, all) = if periodic { (2 * (n / 2), n) } else { (n.saturating_sub(2), n.saturating_sub(1)) };
    // no turn at all of a single cell
    maths::sin(0.5 * PI * turns as f64 / all.max(1) as f64)
}

/// Cells by half-open ranges of indices along x, y and z. Upper ends are cut to the grid; an empty or backward range has no cell.
#[derive(Debug, Clone, Copy, PartialEq, Eq)]
pub struct CellBox {
    pub x: (usize, usize),
    pub y: (usize, usize),
    pub z: (usize, usize),
}

impl CellBox {
    /// All cells of the planes from k0 up to, not with, k1.
    pub fn planes(k0: usize, k1: usize) -> Self {
        Self { x: (0, usize::MAX), y: (0, usize::MAX), z: (k0, k1) }
    }

    fn ends(self) -> [usize; 6] {
        [self.x.0, self.x.1, self.y.0, self.y.1, self.z.0, self.z.1]
    }
}

/// What is put into the cells of a box.
#[derive(Debug, Clone, Copy, PartialEq)]
pub enum Put {
    /// The cells keep the poles that they have.
    Numbers { eps_r: f64, mu_r: f64, sigma: f64 },
    /// A material's numbers, and from the next `build_dispersion` on its poles.
    Library(MaterialId),
}

impl Put {
    fn lent(self) -> bindings::Put {
        match self {
            Self::Numbers { eps_r, mu_r, sigma } => bindings::Put::Numbers([eps_r, mu_r, sigma]),
            Self::Library(material) => bindings::Put::Library(material.0),
        }
    }
}

/// A material that was added to a study.
#[derive(Debug, Clone, Copy, PartialEq, Eq, Hash)]
pub struct MaterialId(u32);

impl MaterialId {
    /// Material 0, which every study has.
    pub const VACUUM: Self = Self(0);

    /// The material with a number; a study that has none such turns it down.
    pub fn numbered(number: u32) -> Self {
        Self(number)
    }

    pub fn number(self) -> u32 {
        self.0
    }
}

/// On which axes, x, y and z, the absorbing layer was asked for, and on which it works. An axis too thin for twice the thickness and two cells
/// more gets none: it then reflects like a conducting wall.
#[derive(Debug, Clone, Copy, PartialEq, Eq)]
pub struct Layer {
    pub asked: [bool; 3],
    pub active: [bool; 3],
}

impl Layer {
    /// The axes that were asked for and do not absorb.
    pub fn missing(&self) -> [bool; 3] {
        [0, 1, 2].map(|axis| self.asked[axis] && !self.active[axis])
    }

    pub fn is_whole(&self) -> bool {
        self.missing() == [false; 3]
    }
}

/// A field.
#[derive(Debug, Clone, Copy, PartialEq, Eq)]
pub enum Field {
    Electric,
    Magnetic,
}

/// A study: an opened grid with its materials, walls, wave and fields. It can be sent to another thread and cloned. Two are the same study if their saves are.
#[derive(Clone)]
pub struct Study {
    lent: Lent,
}

impl Study {
    pub fn open(grid: &Grid) -> Result<Self, Refusal> {
        let mut lent = lent(grid.cells, grid.pole_slots);
        let [dx, dy, dz] = grid.pitch;
        Refusal::check(lent.open(grid.cells, grid.pole_slots, grid.constants.number(), [dx, dy, dz, grid.dt]))?;
        Ok(Self { lent })
    }

    // ---- materials

    pub fn add_material(&mut self, material: &Material) -> Result<MaterialId, Refusal> {
        let mut id = [0];
        Refusal::check(self.lent.add_material(&material.bytes(), &mut id))?;
        Ok(MaterialId(id[0]))
    }

    /// Puts three numbers, or a material, into each cell of the box, and answers how many cells it has in the grid.
    pub fn put_box(&mut self, cells: CellBox, what: Put) -> Result<u32, Refusal> {
        let mut count = [0];
        Refusal::check(self.lent.put_box(cells.ends(), what.lent(), &mut count))?;
        Ok(count[0])
    }

    /// Every cell from plane k0 on.
    pub fn assign_material_halfspace_z(&mut self, material: MaterialId, k0: usize) -> Result<(), Refusal> {
        Refusal::check(self.lent.assign_material_halfspace_z(material.0, k0))
    }

    /// From now on the poles of all materials act. A material that is added later needs another call.
    pub fn build_dispersion(&mut self) -> Result<(), Refusal> {
        Refusal::check(self.lent.build_dispersion())
    }

    // ---- walls

    /// The axes that are periodic from now on; the others end in walls.
    pub fn set_periodic(&mut self, axes: [bool; 3]) -> Result<(), Refusal> {
        Refusal::check(self.lent.set_periodic(axes))
    }

    /// Every axis periodic, and no layer.
    pub fn set_boundary_periodic(&mut self) -> Result<(), Refusal> {
        Refusal::check(self.lent.set_boundary_periodic())
    }

    /// Conducting walls all around: no axis periodic, and no layer.
    pub fn set_boundary_conductor(&mut self) -> Result<(), Refusal> {
        Refusal::check(self.lent.set_boundary_conductor())
    }

    /// A graded conductivity of so many cells at each wall that is not periodic, and no layer; it overwrites sigma in every cell.
    pub fn set_boundary_lossy(&mut self, thickness: usize, order: usize, sigma_max: f64) -> Result<(), Refusal> {
        Refusal::check(self.lent.set_boundary_lossy(thickness, order, sigma_max))
    }

    /// The absorbing layer. The answer says on which axes it works; an axis that is asked for is periodic no more, whether it works there or not.
    pub fn set_boundary_cpml(&mut self, config: &CpmlConfig) -> Result<Layer, Refusal> {
        let given = tables(&self.grid(), config)?;
        self.set_boundary_tables(config.axes, config.thickness, &given)
    }

    /// The same with tables of the caller's: of each axis kinv_e, b_e, c_e, kinv_h, b_h, c_h.
    pub fn set_boundary_tables(&mut self, axes: [bool; 3], thickness: usize, given: &[f64]) -> Result<Layer, Refusal> {
        let mut active = [0];
        let number = self.lent.set_boundary_cpml(axes, thickness, given, &mut active);
        Refusal::check(number)?;
        Ok(Layer { asked: axes, active: [1, 2, 4].map(|bit| active[0] & bit != 0) })
    }

    // ---- the wave

    /// The total field stands from plane k0 to plane k1.
    pub fn slab_z(&mut self, k0: usize, k1: usize) -> Result<(), Refusal> {
        Refusal::check(self.lent.slab_z(k0, k1))
    }

    /// The wave enters at plane k0 and is not taken out.
    pub fn injector_z(&mut self, k0: usize) -> Result<(), Refusal> {
        Refusal::check(self.lent.injector_z(k0))
    }

    /// The total field stands in a box of cells, its corners i0, i1, j0, j1, k0, k1 among them.
    pub fn box_region(&mut self, corners: [usize; 6]) -> Result<(), Refusal> {
        Refusal::check(self.lent.box_region(corners))
    }

    // ---- steps and readings

    /// One step, with what the source gives at its end.
    pub fn step(&mut self, sample: f64) -> Result<(), Refusal> {
        Refusal::check(self.lent.step(sample))
    }

    /// A step for each sample: all of them or, where it is refused, none.
    pub fn run(&mut self, samples: &[f64]) -> Result<(), Refusal> {
        Refusal::check(self.lent.run(samples))
    }

    pub fn reset_fields(&mut self) -> Result<(), Refusal> {
        Refusal::check(self.lent.reset_fields())
    }

    /// The field's energy in J.
    pub fn total_energy(&self) -> Result<f64, Refusal> {
        let mut energy = [0.0];
        Refusal::check(self.lent.total_energy(&mut energy))?;
        Ok(energy[0])
    }

    /// The sum of ex hy over plane k times dx dy: the power through it in W, but for the half step between E and H.
    pub fn plane_reading(&self, k: usize) -> Result<f64, Refusal> {
        let mut reading = [0.0];
        Refusal::check(self.lent.plane_reading(k, &mut reading))?;
        Ok(reading[0])
    }

    // ---- saves

    /// The study as bytes, which are the same wherever they are written.
    pub fn save(&self) -> Result<Vec<u8>, Refusal> {
        let mut length = [0];
        Refusal::check(self.lent.save_length(&mut length))?;
        let mut bytes = vec![0; length[0]];
        Refusal::check(self.lent.save(&mut bytes))?;
        Ok(bytes)
    }

    /// The study that was saved.
    pub fn from_save(bytes: &[u8]) -> Result<Self, Refusal> {
        let size = |at: usize| bytes.get(at..at + 2).map_or(0, |b| usize::from(b[0]) + 256 * usize::from(b[1]));
        // behind the frame of six bytes: nx, ny, nz, and at 14 the pole slots
        let sizes = [size(6), size(8), size(10)];
        let pole_slots = bytes.get(20).map_or(0, |&b| usize::from(b));
        let mut lent = lent(sizes, pole_slots);
        Refusal::check(lent.rewind(bytes))?;
        Ok(Self { lent })
    }

    /// Takes up a saved study in the place of this one; refused, this one stays.
    pub fn rewind(&mut self, bytes: &[u8]) -> Result<(), Refusal> {
        *self = Self::from_save(bytes)?;
        Ok(())
    }

    // ---- what stands in it

    pub fn grid(&self) -> Grid {
        let [dx, dy, dz] = [29, 37, 45].map(|at| self.double(at));
        Grid {
            cells: [0, 2, 4].map(|at| self.short(at)),
            pitch: [dx, dy, dz],
            dt: self.double(53),
            pole_slots: usize::from(self.lent.block[14]),
            // the engine takes no others
            constants: Constants::numbered(usize::from(self.lent.block[73])).unwrap_or_default(),
        }
    }

    /// Up to which Courant number its steps are stable, as it stands: that of its grid times the least √(ε μ) of a cell, ε with what the poles that act add to it for
    /// a field that changes its sign at each step; and that of the incident wave's line, where it has a region. In a grid of one material it is where the field
    /// begins to grow; where materials lie side by side the field may stay beyond it.
    pub fn courant_limit(&self) -> f64 {
        let grid = self.grid();
        let cells = grid.courant_limit(self.periodic()) * self.least_square().max(0.0).sqrt();
        if self.has_region() { cells.min(grid.line_limit()) } else { cells }
    }

    /// The least ε μ of a cell.
    fn least_square(&self) -> f64 {
        let grid = self.grid();
        let built = u32::from(self.lent.block[13]);
        let of = |id: u32| self.material(MaterialId(id)).map_or(0.0, |material| material.alternating(grid.dt, grid.constants));
        let poles: Vec<f64> = (0..built).map(of).collect();
        let cells = self.lent.ids.len();
        let (eps, rest) = self.lent.media.split_at(cells.min(self.lent.media.len()));
        let added = |id: &u32| poles.get(*id as usize).copied().unwrap_or(0.0);
        let squares = eps.iter().zip(rest).zip(&self.lent.ids).map(|((eps, mu), id)| (eps + added(id)) * mu);
        // a NaN is no limit
        squares.fold(f64::INFINITY, f64::min)
    }

    /// A material that was added; None where there is none with this number.
    pub fn material(&self, id: MaterialId) -> Option<Material> {
        let number = usize::try_from(id.number()).ok().filter(|number| *number < self.material_count())?;
        let at = BLOCK_LENGTH - MATERIAL_LENGTH * MOST_MATERIALS + MATERIAL_LENGTH * number;
        Material::from_bytes(self.lent.block.get(at..)?.first_chunk()?)
    }

    pub fn periodic(&self) -> [bool; 3] {
        [6, 7, 8].map(|at| self.lent.block[at] == 1)
    }

    /// The axes on which the absorbing layer works.
    pub fn active(&self) -> [bool; 3] {
        [9, 10, 11].map(|at| self.lent.block[at] == 1)
    }

    /// Whether the wave has a region.
    pub fn has_region(&self) -> bool {
        self.lent.block[16] != 0
    }

    /// Materials, the vacuum among them.
    pub fn material_count(&self) -> usize {
        usize::from(self.lent.block[15])
    }

    /// The time in s since opening, or since the wave's region was set.
    pub fn time(&self) -> f64 {
        self.double(61)
    }

    /// The steps since opening.
    pub fn steps(&self) -> u32 {
        let bytes = [69, 70, 71, 72].map(|at| self.lent.block[at]);
        u32::from_le_bytes(bytes)
    }

    /// A component of a field, 0 along x, 1 along y, 2 along z, cell by cell with x fastest; empty for any other.
    pub fn component(&self, field: Field, axis: usize) -> &[f64] {
        let store = match field {
            Field::Electric => &self.lent.e,
            Field::Magnetic => &self.lent.h,
        };
        let cells = store.len() / 3;
        let from = axis.saturating_mul(cells);
        store.get(from..from.saturating_add(cells)).unwrap_or(&[])
    }

    /// A component in plane k, row by row along x; empty where there is no such plane.
    pub fn plane(&self, field: Field, axis: usize, k: usize) -> &[f64] {
        let cells = self.short(0) * self.short(2);
        let from = k.saturating_mul(cells);
        let to = from.saturating_add(cells);
        self.component(field, axis).get(from..to).unwrap_or(&[])
    }

    /// ex of the incident wave at plane k, as the auxiliary line has it; None where there is no such plane.
    pub fn incident(&self, k: usize) -> Option<f64> {
        (k < self.short(4)).then(|| self.lent.aux[LINE_PAD + k])
    }

    fn short(&self, at: usize) -> usize {
        usize::from(self.lent.block[at]) + 256 * usize::from(self.lent.block[at + 1])
    }

    fn double(&self, at: usize) -> f64 {
        let bytes = [0, 1, 2, 3, 4, 5, 6, 7].map(|i| self.lent.block[at + i]);
        f64::from_le_bytes(bytes)
    }
}
