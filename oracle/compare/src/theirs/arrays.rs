//! The original's arrays beside the stores, and its settings as a record.

use std::ops::Range;

use super::materials::engine_material;
use super::original::cpml::{AxisCoeffs, Cpml, CpmlConfig};
use super::original::grid::Array3D;
use super::{Side, THICK};
use crate::engine::block::{CONSTANTS, Record, Region, TIME};

impl Side {
    /// What `run` has left: every array, and the clock.
    pub fn read(&mut self) {
        self.read_arrays();
        self.write_block(TIME..CONSTANTS);
    }

    /// These bytes of the block that is expected, as the original now stands.
    pub(super) fn write_block(&mut self, bytes: Range<usize>) {
        let block = self.record().write();
        self.expected.block[bytes.clone()].copy_from_slice(&block[bytes]);
    }

    /// Takes from the original every array that it has.
    pub(super) fn read_arrays(&mut self) {
        self.expected.ids.clone_from(&self.grid.mat_id);
        self.each_array(|mine, theirs| mine.copy_from_slice(theirs));
    }

    /// Puts the stores into the original's arrays.
    pub(super) fn write(&mut self) {
        self.grid.mat_id.clone_from(&self.expected.ids);
        self.each_array(|mine, theirs| theirs.copy_from_slice(mine));
    }

    /// Goes through the original's arrays, each with its part of a store.
    fn each_array(&mut self, f: impl Fn(&mut [f64], &mut [f64])) {
        let (grid, stores) = (&mut self.grid, &mut self.expected);
        let slots = 3 * usize::from(self.pole_slots) * grid.len();
        let fields = [&mut grid.ex, &mut grid.ey, &mut grid.ez];
        pair(&mut stores.e, fields.map(numbers), &f);
        let fields = [&mut grid.hx, &mut grid.hy, &mut grid.hz];
        pair(&mut stores.h, fields.map(numbers), &f);
        let media = [&mut grid.eps_r, &mut grid.mu_r, &mut grid.sigma];
        pair(&mut stores.media, media.map(numbers), &f);
        if let Some(layer) = &mut grid.cpml {
            pair(&mut stores.psi_e, electric_memories(layer), &f);
            pair(&mut stores.psi_h, magnetic_memories(layer), &f);
            let tables = layer.axis.iter_mut().flat_map(tables_of);
            pair(&mut stores.tables, tables, &f);
        }
        if let Some(state) = &mut grid.dispersion {
            let (p, rest) = stores.poles.split_at_mut(slots);
            let (before, change) = rest.split_at_mut(slots);
            pair(p, state.p.iter_mut().flatten().map(numbers), &f);
            pair(before, state.p_prev.iter_mut().flatten().map(numbers), &f);
            pair(change, state.dp.iter_mut().map(numbers), &f);
        }
        if let Some((_, wave)) = &mut self.wave {
            pair(&mut stores.aux, [&mut wave.aux.ex, &mut wave.aux.hy], &f);
        }
    }

    pub(super) fn record(&self) -> Record {
        let grid = &self.grid;
        let layer = grid.cpml.as_ref();
        Record {
            sizes: [grid.nx, grid.ny, grid.nz],
            periodic: grid.periodic,
            active: [0, 1, 2].map(|axis| layer.is_some_and(|l| l.axis[axis].active)),
            layer_on: layer.is_some(),
            built_count: self.built_count,
            pole_slots: self.pole_slots,
            material_count: grid.materials.len() as u8,
            region: self.region(),
            spacings: [grid.dx, grid.dy, grid.dz, grid.dt],
            time: self.time,
            steps: self.steps,
            constants: self.constants,
            materials: grid.materials.iter().map(engine_material).collect(),
        }
    }

    fn region(&self) -> Region {
        match &self.wave {
            None => Region {
                kind: 0,
                corners: [0; 6],
            },
            Some((kind, w)) => Region {
                kind: *kind,
                corners: [w.i0, w.i1, w.j0, w.j1, w.k0, w.k1],
            },
        }
    }
}

/// Arrays one after the other, each with its part of a store.
fn pair<'a>(
    mut store: &mut [f64],
    arrays: impl IntoIterator<Item = &'a mut Vec<f64>>,
    f: impl Fn(&mut [f64], &mut [f64]),
) {
    for array in arrays {
        let (part, rest) = store.split_at_mut(array.len());
        f(part, array);
        store = rest;
    }
}

fn numbers(array: &mut Array3D) -> &mut Vec<f64> {
    &mut array.data
}

fn electric_memories(layer: &mut Cpml) -> [&mut Vec<f64>; 6] {
    let arrays = [
        &mut layer.psi_exy,
        &mut layer.psi_exz,
        &mut layer.psi_eyz,
        &mut layer.psi_eyx,
        &mut layer.psi_ezx,
        &mut layer.psi_ezy,
    ];
    arrays.map(numbers)
}

fn magnetic_memories(layer: &mut Cpml) -> [&mut Vec<f64>; 6] {
    let arrays = [
        &mut layer.psi_hxy,
        &mut layer.psi_hxz,
        &mut layer.psi_hyz,
        &mut layer.psi_hyx,
        &mut layer.psi_hzx,
        &mut layer.psi_hzy,
    ];
    arrays.map(numbers)
}

pub fn tables_of(axis: &mut AxisCoeffs) -> [&mut Vec<f64>; 6] {
    [
        &mut axis.kinv_e,
        &mut axis.b_e,
        &mut axis.c_e,
        &mut axis.kinv_h,
        &mut axis.b_h,
        &mut axis.c_h,
    ]
}

/// The tables that the original computes for a layer, in store order.
pub fn built_tables(record: &Record, config: &phyz_em::cpml::CpmlConfig) -> Vec<f64> {
    let ([nx, ny, nz], [dx, dy, dz, dt]) = (record.sizes, record.spacings);
    let mut layer = Cpml::new(nx, ny, nz, dx, dy, dz, dt, own(config));
    let tables = layer.axis.iter_mut().flat_map(tables_of);
    tables.flat_map(|table| table.clone()).collect()
}

/// The settings of a layer as this copy of the original has them.
fn own(config: &phyz_em::cpml::CpmlConfig) -> CpmlConfig {
    CpmlConfig {
        thickness: config.thickness.min(THICK),
        order: config.order,
        kappa_max: config.kappa_max,
        alpha_factor: config.alpha_factor,
        alpha_order: config.alpha_order,
        target_reflection: config.target_reflection,
        sigma_scale: config.sigma_scale,
        axes: config.axes,
    }
}
