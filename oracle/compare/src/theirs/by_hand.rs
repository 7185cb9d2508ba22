//! The caller's own writing into block and stores, followed on the original's side.

use super::Side;
use super::materials::original_material;
use super::original::cpml::{Cpml, CpmlConfig};
use super::original::dispersion::DispersiveState;
use super::original::grid::Array3D;
use super::original::tfsf::Tfsf;
use crate::call::Call;
use crate::engine::Study;
use crate::engine::block::Region;

impl Side {
    /// The original set up as a block and stores say, whatever has led to them.
    pub fn of(study: &Study) -> Self {
        let record = study.record().unwrap();
        let (slots, constants) = (record.pole_slots.into(), record.constants.into());
        let mut side = Self::open(record.sizes, slots, constants, record.spacings);
        side.expected = study.clone();
        side.grid.periodic = record.periodic;
        side.grid.materials = record.materials.iter().map(original_material).collect();
        (side.time, side.steps) = (record.time, record.steps);
        side.built_count = record.built_count;
        side.put_dispersion();
        side.put_region(record.region);
        if record.layer_on {
            side.put_layer(record.active);
        }
        side.write();
        side
    }

    /// Written by hand into what is expected, and the original set up as block and stores then say.
    pub(super) fn write_by_hand(&mut self, call: &Call) {
        self.expected.write_by_hand(call);
        match call {
            Call::PutSteps(steps) => self.steps = *steps,
            Call::PutActive(axes) => self.put_layer(*axes),
            Call::PutTime(time) => {
                self.time = *time;
                if let Some((_, wave)) = &mut self.wave {
                    wave.aux.time = *time;
                }
            }
            Call::PutBuilt(count) => {
                self.built_count = *count;
                self.put_dispersion();
            }
            Call::PutMaterial { id, material } => {
                self.grid.materials[*id] = original_material(material);
                self.put_dispersion();
            }
            Call::PutRegion(region) => self.put_region(*region),
            Call::PutConstants(constants) => self.constants = *constants,
            _ => {}
        }
        self.write();
    }

    /// A layer with these axes active; its memories and tables are the stores'.
    fn put_layer(&mut self, axes: [bool; 3]) {
        let grid = &self.grid;
        let off = CpmlConfig::default().on_axes([false; 3]);
        let mut layer = Cpml::new(
            grid.nx, grid.ny, grid.nz, grid.dx, grid.dy, grid.dz, grid.dt, off,
        );
        for (axis, active) in layer.axis.iter_mut().zip(axes) {
            axis.active = active;
        }
        self.grid.cpml = Some(layer);
    }

    /// As many materials built as the block says, whether one of them has a pole or not. Every slot of the
    /// pole store gets its arrays. With a pole that cannot be stepped no step is accepted, and no coefficient used.
    fn put_dispersion(&mut self) {
        let grid = &mut self.grid;
        let slots = usize::from(self.pole_slots);
        let zeros = || [0; 3].map(|_| Array3D::zeros(grid.nx, grid.ny, grid.nz));
        let slot_arrays = || (0..slots).map(|_| zeros()).collect();
        let built = &grid.materials[..usize::from(self.built_count)];
        let coefficients = built
            .iter()
            .map(|m| m.poles.iter().map(|p| p.ade_coeffs(grid.dt)).collect());
        let state = DispersiveState {
            n_poles: slots,
            p: slot_arrays(),
            p_prev: slot_arrays(),
            dp: zeros(),
            coeffs: coefficients.collect(),
        };
        grid.dispersion = (self.built_count != 0).then_some(state);
    }

    /// A region with any corners, whatever its kind; line and clock stay.
    fn put_region(&mut self, region: Region) {
        let [i0, i1, j0, j1, k0, k1] = region.corners;
        let wave = match region.kind {
            0 => None,
            1 => Some(Tfsf::slab_z(&self.grid, k0, k1)),
            2 => Some(Tfsf::injector_z(&self.grid, k0)),
            _ => Some(Tfsf::box_region(&self.grid, i0, i1, j0, j1, k0, k1)),
        };
        self.wave = wave.map(|mut wave| {
            (wave.i0, wave.i1, wave.j0, wave.j1) = (i0, i1, j0, j1);
            (wave.k0, wave.k1) = (k0, k1);
            wave.aux.time = self.time;
            (region.kind, wave)
        });
    }
}
