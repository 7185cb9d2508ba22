//! The original, driven as a study is: compiled once for each set of constants.

use super::original::boundary::BoundaryCondition;
use super::original::dispersion::{self, DispersiveMaterial};
use super::original::grid::YeeGrid;
use super::original::tfsf::Tfsf;
use super::original::{cpml, cpml::Cpml};
use crate::same::Original;
use crate::slabs::{Line, layer};
use cichowiej::{CpmlConfig, Grid, Material, Pole};

/// The original's grid and wave.
pub struct Theirs {
    grid: YeeGrid,
    wave: Tfsf,
}

impl Original for Theirs {
    fn new(line: &Line, filled: bool) -> Self {
        let (Grid { cells: [nx, ny, nz], pitch: [dx, dy, dz], dt, .. }, places) = (line.grid(), line.places());
        let mut grid = YeeGrid::new_rect(nx, ny, nz, dx, dy, dz, dt);
        grid.set_periodic([true, true, false]);
        grid.set_boundary(BoundaryCondition::Cpml(config(&layer(places.layer))));
        if filled {
            let id = grid.add_material(material(&line.case.material));
            grid.assign_material_box(id, (0, nx), (0, ny), (places.slab, places.slab + line.fine));
        }
        grid.build_dispersion();
        let wave = Tfsf::injector_z(&grid, places.wave);
        Self { grid, wave }
    }

    fn step(&mut self, sample: f64) {
        self.wave.step(&mut self.grid, &|_| sample);
    }

    fn ex(&self) -> &[f64] {
        &self.grid.ex.data
    }

    fn hy(&self) -> &[f64] {
        &self.grid.hy.data
    }

    fn incident(&self, k: usize) -> f64 {
        self.wave.ex_inc(k)
    }

    fn tables(grid: &Grid, layer: &CpmlConfig) -> Vec<f64> {
        let ([nx, ny, nz], [dx, dy, dz]) = (grid.cells, grid.pitch);
        let built = Cpml::new(nx, ny, nz, dx, dy, dz, grid.dt, config(layer));
        let six = |axis: &cpml::AxisCoeffs| {
            [&axis.kinv_e, &axis.b_e, &axis.c_e, &axis.kinv_h, &axis.b_h, &axis.c_h].map(Vec::clone).concat()
        };
        built.axis.iter().flat_map(six).collect()
    }
}

fn material(material: &Material) -> DispersiveMaterial {
    let pole = |pole: &Pole| match *pole {
        Pole::Lorentz { delta_eps, omega0, gamma } => dispersion::Pole::Lorentz { delta_eps, omega0, gamma },
        Pole::Drude { omega_p, gamma } => dispersion::Pole::Drude { omega_p, gamma },
        Pole::Debye { delta_eps, tau } => dispersion::Pole::Debye { delta_eps, tau },
    };
    let poles = material.poles.iter().map(pole).collect();
    DispersiveMaterial { eps_inf: material.eps_inf, sigma: material.sigma, mu_r: material.mu_r, poles }
}

fn config(config: &CpmlConfig) -> cpml::CpmlConfig {
    let CpmlConfig { thickness, order, kappa_max, alpha_factor, alpha_order, target_reflection, sigma_scale, axes } = *config;
    cpml::CpmlConfig { thickness, order, kappa_max, alpha_factor, alpha_order, target_reflection, sigma_scale, axes }
}
