//! The engine for a program in Rust: the C functions of cichowiej.h, which says what each does, and each call on a study as a method that needs no
//! `unsafe`. A crate takes this file in as a module, so that Rust has the declarations once; oracle/compare/tests/header holds them to the header.

// Each crate that takes the file in uses a part of it.
#![allow(dead_code)]

// Those that take and give numbers alone are safe to call with any.
unsafe extern "C" {
    pub safe fn cichowiej_eps0() -> f64;
    pub safe fn cichowiej_mu0() -> f64;
    pub safe fn cichowiej_c0() -> f64;
    pub safe fn cichowiej_eps0_2019() -> f64;
    pub safe fn cichowiej_mu0_2019() -> f64;
    pub safe fn cichowiej_c0_2019() -> f64;
    pub safe fn cichowiej_root(x: f64) -> f64;
    pub safe fn cichowiej_cfl_number(c0: f64, dx: f64, dy: f64, dz: f64, dt: f64) -> f64;
    pub safe fn cichowiej_max_stable_dt(c0: f64, dx: f64, dy: f64, dz: f64, dt: f64) -> f64;
    pub safe fn cichowiej_is_stable(c0: f64, dx: f64, dy: f64, dz: f64, dt: f64) -> bool;
    pub safe fn cichowiej_powi(u: f64, n: usize) -> f64;
    pub safe fn cichowiej_wall_sigma(t: usize, order: usize, sigma_max: f64, d: usize) -> f64;
    pub safe fn cichowiej_stronger(s: f64, v: f64) -> f64;
    fn cichowiej_ade_coeffs(tag: u32, first: f64, second: f64, third: f64, eps0: f64, dt: f64, out: *mut f64, out_length: usize) -> u32;
}

// An array is a pointer and the number of its elements.
unsafe extern "C" {
    fn cichowiej_open(
        block: *mut u8, block_length: usize, nx: usize, ny: usize, nz: usize, pole_slots: usize, constants: usize,
        dx: f64, dy: f64, dz: f64, dt: f64, e: *mut f64, e_length: usize, h: *mut f64, h_length: usize, media: *mut f64, media_length: usize,
        psi_e: *mut f64, psi_e_length: usize, psi_h: *mut f64, psi_h_length: usize, tables: *mut f64, tables_length: usize,
        poles: *mut f64, poles_length: usize, aux: *mut f64, aux_length: usize, ids: *mut u32, ids_length: usize
    ) -> u32;
    fn cichowiej_add_material(
        block: *mut u8, block_length: usize, material: *const u8, material_length: usize, id: *mut u32, id_length: usize
    ) -> u32;
    fn cichowiej_put_box(
        block: *mut u8, block_length: usize, i0: usize, i1: usize, j0: usize, j1: usize, k0: usize, k1: usize,
        library: bool, id: u32, eps_r: f64, mu_r: f64, sigma: f64,
        media: *mut f64, media_length: usize, ids: *mut u32, ids_length: usize, cells: *mut u32, cells_length: usize
    ) -> u32;
    fn cichowiej_assign_material_halfspace_z(
        block: *mut u8, block_length: usize, id: u32, k0: usize, media: *mut f64, media_length: usize, ids: *mut u32, ids_length: usize
    ) -> u32;
    fn cichowiej_build_dispersion(block: *mut u8, block_length: usize, poles: *mut f64, poles_length: usize) -> u32;
    fn cichowiej_set_periodic(block: *mut u8, block_length: usize, x: bool, y: bool, z: bool) -> u32;
    fn cichowiej_set_boundary_periodic(
        block: *mut u8, block_length: usize, psi_e: *mut f64, psi_e_length: usize, psi_h: *mut f64, psi_h_length: usize,
        tables: *mut f64, tables_length: usize
    ) -> u32;
    fn cichowiej_set_boundary_conductor(
        block: *mut u8, block_length: usize, psi_e: *mut f64, psi_e_length: usize, psi_h: *mut f64, psi_h_length: usize,
        tables: *mut f64, tables_length: usize
    ) -> u32;
    fn cichowiej_set_boundary_lossy(
        block: *mut u8, block_length: usize, thickness: usize, order: usize, sigma_max: f64, psi_e: *mut f64, psi_e_length: usize,
        psi_h: *mut f64, psi_h_length: usize, tables: *mut f64, tables_length: usize, media: *mut f64, media_length: usize
    ) -> u32;
    fn cichowiej_set_boundary_cpml(
        block: *mut u8, block_length: usize, x: bool, y: bool, z: bool, thickness: usize, given: *const f64, given_length: usize,
        psi_e: *mut f64, psi_e_length: usize, psi_h: *mut f64, psi_h_length: usize, tables: *mut f64, tables_length: usize,
        active: *mut u32, active_length: usize
    ) -> u32;
    fn cichowiej_slab_z(block: *mut u8, block_length: usize, k0: usize, k1: usize, aux: *mut f64, aux_length: usize) -> u32;
    fn cichowiej_injector_z(block: *mut u8, block_length: usize, k0: usize, aux: *mut f64, aux_length: usize) -> u32;
    fn cichowiej_box_region(
        block: *mut u8, block_length: usize, i0: usize, i1: usize, j0: usize, j1: usize, k0: usize, k1: usize, aux: *mut f64, aux_length: usize
    ) -> u32;
    fn cichowiej_step(
        block: *mut u8, block_length: usize, sample: f64, e: *mut f64, e_length: usize, h: *mut f64, h_length: usize,
        media: *const f64, media_length: usize, psi_e: *mut f64, psi_e_length: usize, psi_h: *mut f64, psi_h_length: usize,
        tables: *const f64, tables_length: usize, poles: *mut f64, poles_length: usize, aux: *mut f64, aux_length: usize,
        ids: *const u32, ids_length: usize
    ) -> u32;
    fn cichowiej_run(
        block: *mut u8, block_length: usize, samples: *const f64, samples_length: usize, e: *mut f64, e_length: usize,
        h: *mut f64, h_length: usize, media: *const f64, media_length: usize, psi_e: *mut f64, psi_e_length: usize,
        psi_h: *mut f64, psi_h_length: usize, tables: *const f64, tables_length: usize, poles: *mut f64, poles_length: usize,
        aux: *mut f64, aux_length: usize, ids: *const u32, ids_length: usize
    ) -> u32;
    fn cichowiej_reset_fields(
        block: *mut u8, block_length: usize, e: *mut f64, e_length: usize, h: *mut f64, h_length: usize, psi_e: *mut f64, psi_e_length: usize,
        psi_h: *mut f64, psi_h_length: usize, poles: *mut f64, poles_length: usize
    ) -> u32;
    fn cichowiej_total_energy(
        block: *const u8, block_length: usize, e: *const f64, e_length: usize, h: *const f64, h_length: usize,
        media: *const f64, media_length: usize, energy: *mut f64, energy_length: usize
    ) -> u32;
    fn cichowiej_plane_reading(
        block: *const u8, block_length: usize, k: usize, e: *const f64, e_length: usize, h: *const f64, h_length: usize,
        reading: *mut f64, reading_length: usize
    ) -> u32;
    fn cichowiej_save_length(block: *const u8, block_length: usize, length: *mut usize, length_length: usize) -> u32;
    fn cichowiej_save(
        block: *const u8, block_length: usize, e: *const f64, e_length: usize, h: *const f64, h_length: usize,
        media: *const f64, media_length: usize, psi_e: *const f64, psi_e_length: usize, psi_h: *const f64, psi_h_length: usize,
        tables: *const f64, tables_length: usize, poles: *const f64, poles_length: usize, aux: *const f64, aux_length: usize,
        ids: *const u32, ids_length: usize, out: *mut u8, out_length: usize
    ) -> u32;
    fn cichowiej_rewind(
        block: *mut u8, block_length: usize, save: *const u8, save_length: usize, e: *mut f64, e_length: usize, h: *mut f64, h_length: usize,
        media: *mut f64, media_length: usize, psi_e: *mut f64, psi_e_length: usize, psi_h: *mut f64, psi_h_length: usize,
        tables: *mut f64, tables_length: usize, poles: *mut f64, poles_length: usize, aux: *mut f64, aux_length: usize,
        ids: *mut u32, ids_length: usize
    ) -> u32;
}

/// Calls a function: `mut x` lends the slice x to be written and `ref x` to be read, each as two arguments.
macro_rules! call {
    // SAFETY: each pointer is a slice's, with that slice's length, so that it is valid and aligned for as many elements. What is lent to be
    // written is borrowed for that alone, so that it overlaps nothing else in the call. The engine is proved to touch nothing outside of what
    // it is lent and to return on every input, and it keeps nothing between calls.
    (@ $f:ident [$($done:tt)*]) => { unsafe { $f($($done)*) } };
    (@ $f:ident [$($done:tt)*] mut $x:expr, $($rest:tt)*) => {
        call!(@ $f [$($done)* $x.as_mut_ptr(), $x.len(),] $($rest)*)
    };
    (@ $f:ident [$($done:tt)*] ref $x:expr, $($rest:tt)*) => {
        call!(@ $f [$($done)* $x.as_ptr(), $x.len(),] $($rest)*)
    };
    (@ $f:ident [$($done:tt)*] $x:expr, $($rest:tt)*) => { call!(@ $f [$($done)* $x,] $($rest)*) };
    ($f:ident, $($arguments:tt)*) => { call!(@ $f [] $($arguments)*) };
}

/// The three coefficients of a pole (tag 1 Lorentz, 2 Drude, 3 Debye) in `out`, or a refusal's number: 4 for another length than three, 3 for another tag, 19 for a
/// coefficient that is not finite.
pub fn ade_coeffs(tag: u32, numbers: [f64; 3], eps0: f64, dt: f64, out: &mut [f64]) -> u32 {
    let [first, second, third] = numbers;
    call!(cichowiej_ade_coeffs, tag, first, second, third, eps0, dt, mut out,)
}

/// What is put into the cells of a box.
#[derive(Debug, Clone, Copy, PartialEq)]
pub enum Put {
    /// eps_r, mu_r and sigma; the ids stand.
    Numbers([f64; 3]),
    /// A material that was added, by its id.
    Library(u32),
}

/// A study as its caller holds it: the block and the nine stores, in the order of the header's table. Each call answers the refusal's number; stores of
/// other lengths than the sizes ask for are turned down.
#[derive(Clone)]
pub struct Lent {
    pub block: Vec<u8>,
    pub e: Vec<f64>,
    pub h: Vec<f64>,
    pub media: Vec<f64>,
    pub psi_e: Vec<f64>,
    pub psi_h: Vec<f64>,
    pub tables: Vec<f64>,
    pub poles: Vec<f64>,
    pub aux: Vec<f64>,
    pub ids: Vec<u32>,
}

impl Lent {
    /// Stores of the lengths that the sizes and pole slots ask for, not yet opened, with `number` or `id` in every place.
    pub fn with_lengths(block: Vec<u8>, sizes: [usize; 3], pole_slots: usize, number: f64, id: u32) -> Self {
        let cells: usize = sizes.iter().product();
        let line: usize = sizes.iter().sum();
        let store = |length| vec![number; length];
        Self {
            block,
            e: store(3 * cells),
            h: store(3 * cells),
            media: store(3 * cells),
            psi_e: store(6 * cells),
            psi_h: store(6 * cells),
            tables: store(6 * line),
            poles: store((6 * pole_slots + 3) * cells),
            aux: store(2 * (sizes[2] + 48)),
            ids: vec![id; cells],
        }
    }

    /// Constants are 0, the older SI values, or 1, those of 2019.
    pub fn open(
        &mut self,
        sizes: [usize; 3],
        pole_slots: usize,
        constants: usize,
        spacings: [f64; 4],
    ) -> u32 {
        let ([nx, ny, nz], [dx, dy, dz, dt]) = (sizes, spacings);
        call!(cichowiej_open, mut self.block, nx, ny, nz, pole_slots, constants, dx, dy, dz, dt,
            mut self.e, mut self.h, mut self.media, mut self.psi_e, mut self.psi_h,
            mut self.tables, mut self.poles, mut self.aux, mut self.ids,)
    }

    pub fn add_material(&mut self, material: &[u8], id: &mut [u32]) -> u32 {
        call!(cichowiej_add_material, mut self.block, ref material, mut id,)
    }

    /// The box is i0, i1, j0, j1, k0, k1; numbers are eps_r, mu_r, sigma.
    pub fn put_box(&mut self, range: [usize; 6], what: Put, cells: &mut [u32]) -> u32 {
        let [i0, i1, j0, j1, k0, k1] = range;
        let (library, id, [eps_r, mu_r, sigma]) = match what {
            Put::Numbers(numbers) => (false, 0, numbers),
            Put::Library(id) => (true, id, [0.0; 3]),
        };
        call!(cichowiej_put_box, mut self.block, i0, i1, j0, j1, k0, k1, library, id, eps_r, mu_r, sigma,
            mut self.media, mut self.ids, mut cells,)
    }

    pub fn assign_material_halfspace_z(&mut self, id: u32, k0: usize) -> u32 {
        call!(cichowiej_assign_material_halfspace_z, mut self.block, id, k0, mut self.media,
            mut self.ids,)
    }

    pub fn build_dispersion(&mut self) -> u32 {
        call!(cichowiej_build_dispersion, mut self.block, mut self.poles,)
    }

    pub fn set_periodic(&mut self, axes: [bool; 3]) -> u32 {
        let [x, y, z] = axes;
        call!(cichowiej_set_periodic, mut self.block, x, y, z,)
    }

    pub fn set_boundary_periodic(&mut self) -> u32 {
        call!(cichowiej_set_boundary_periodic, mut self.block, mut self.psi_e, mut self.psi_h,
            mut self.tables,)
    }

    pub fn set_boundary_conductor(&mut self) -> u32 {
        call!(cichowiej_set_boundary_conductor, mut self.block, mut self.psi_e, mut self.psi_h,
            mut self.tables,)
    }

    pub fn set_boundary_lossy(&mut self, thickness: usize, order: usize, sigma_max: f64) -> u32 {
        call!(cichowiej_set_boundary_lossy, mut self.block, thickness, order, sigma_max,
            mut self.psi_e, mut self.psi_h, mut self.tables, mut self.media,)
    }

    pub fn set_boundary_cpml(
        &mut self,
        axes: [bool; 3],
        thickness: usize,
        given: &[f64],
        active: &mut [u32],
    ) -> u32 {
        let [x, y, z] = axes;
        call!(cichowiej_set_boundary_cpml, mut self.block, x, y, z, thickness, ref given,
            mut self.psi_e, mut self.psi_h, mut self.tables, mut active,)
    }

    pub fn slab_z(&mut self, k0: usize, k1: usize) -> u32 {
        call!(cichowiej_slab_z, mut self.block, k0, k1, mut self.aux,)
    }

    pub fn injector_z(&mut self, k0: usize) -> u32 {
        call!(cichowiej_injector_z, mut self.block, k0, mut self.aux,)
    }

    pub fn box_region(&mut self, corners: [usize; 6]) -> u32 {
        let [i0, i1, j0, j1, k0, k1] = corners;
        call!(cichowiej_box_region, mut self.block, i0, i1, j0, j1, k0, k1, mut self.aux,)
    }

    pub fn step(&mut self, sample: f64) -> u32 {
        call!(cichowiej_step, mut self.block, sample, mut self.e, mut self.h, ref self.media,
            mut self.psi_e, mut self.psi_h, ref self.tables, mut self.poles, mut self.aux,
            ref self.ids,)
    }

    pub fn run(&mut self, samples: &[f64]) -> u32 {
        call!(cichowiej_run, mut self.block, ref samples, mut self.e, mut self.h, ref self.media,
            mut self.psi_e, mut self.psi_h, ref self.tables, mut self.poles, mut self.aux,
            ref self.ids,)
    }

    pub fn reset_fields(&mut self) -> u32 {
        call!(cichowiej_reset_fields, mut self.block, mut self.e, mut self.h, mut self.psi_e,
            mut self.psi_h, mut self.poles,)
    }

    pub fn total_energy(&self, energy: &mut [f64]) -> u32 {
        call!(cichowiej_total_energy, ref self.block, ref self.e, ref self.h, ref self.media,
            mut energy,)
    }

    pub fn plane_reading(&self, k: usize, reading: &mut [f64]) -> u32 {
        call!(cichowiej_plane_reading, ref self.block, k, ref self.e, ref self.h, mut reading,)
    }

    /// The save's length goes into the first place of the room.
    pub fn save_length(&self, length: &mut [usize]) -> u32 {
        call!(cichowiej_save_length, ref self.block, mut length,)
    }

    pub fn save(&self, out: &mut [u8]) -> u32 {
        call!(cichowiej_save, ref self.block, ref self.e, ref self.h, ref self.media,
            ref self.psi_e, ref self.psi_h, ref self.tables, ref self.poles, ref self.aux,
            ref self.ids, mut out,)
    }

    pub fn rewind(&mut self, save: &[u8]) -> u32 {
        call!(cichowiej_rewind, mut self.block, ref save, mut self.e, mut self.h, mut self.media,
            mut self.psi_e, mut self.psi_h, mut self.tables, mut self.poles, mut self.aux,
            mut self.ids,)
    }
}
