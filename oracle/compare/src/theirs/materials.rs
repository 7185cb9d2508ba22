//! Materials as the original has them and as a block has them.

use super::original::dispersion::{self, DispersiveMaterial};
use crate::engine::block::{Material, Pole};

pub fn original_material(m: &Material) -> DispersiveMaterial {
    DispersiveMaterial {
        eps_inf: m.eps_inf,
        sigma: m.sigma,
        mu_r: m.mu_r,
        poles: m.poles.iter().map(original_pole).collect(),
    }
}

fn original_pole(pole: &Pole) -> dispersion::Pole {
    let [x, y, z] = pole.numbers;
    match pole.tag {
        1 => dispersion::Pole::Lorentz {
            delta_eps: x,
            omega0: y,
            gamma: z,
        },
        2 => dispersion::Pole::Drude {
            omega_p: x,
            gamma: y,
        },
        _ => dispersion::Pole::Debye {
            delta_eps: x,
            tau: y,
        },
    }
}

pub fn ade_coeffs(pole: &Pole, dt: f64) -> [f64; 3] {
    original_pole(pole).ade_coeffs(dt).into()
}

pub fn engine_material(m: &DispersiveMaterial) -> Material {
    Material {
        eps_inf: m.eps_inf,
        sigma: m.sigma,
        mu_r: m.mu_r,
        pole_count: m.poles.len() as u8,
        poles: m.poles.iter().map(engine_pole).collect(),
    }
}

fn engine_pole(pole: &dispersion::Pole) -> Pole {
    let (tag, numbers) = match *pole {
        dispersion::Pole::Lorentz {
            delta_eps,
            omega0,
            gamma,
        } => (1, [delta_eps, omega0, gamma]),
        dispersion::Pole::Drude { omega_p, gamma } => (2, [omega_p, gamma, 0.0]),
        dispersion::Pole::Debye { delta_eps, tau } => (3, [delta_eps, tau, 0.0]),
    };
    Pole { tag, numbers }
}
