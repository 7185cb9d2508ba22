//! The same slab on a line of cells, solved by hand: what the difference equations themselves give, at one frequency and without a step being made.
//! What a study differs from this by is no error of the scheme.

use crate::theory::ONE;
use cichowiej::{Complex, Constants, Material, Pole};
use std::f64::consts::PI;

/// A slab of so many cells on a line of cells of the size d, stepped by dt.
pub struct Cells {
    pub count: usize,
    pub d: f64,
    pub dt: f64,
    pub constants: Constants,
}

/// The transmission against as many cells of air, the reflection at the last plane of air, and q, which one cell of air does to a wave.
pub struct Answer {
    pub transmission: Complex,
    pub reflection: Complex,
    pub q: Complex,
}

/// The polarization's recursion P' = a1 P + a2 P_before + a3 ε0 E, as phyz-em's `ade_coeffs` has it.
fn recursion(pole: Pole, dt: f64) -> [f64; 3] {
    let second_order = |strength: f64, omega0: f64, gamma: f64| {
        let denominator = 1.0 + gamma * dt / 2.0;
        let a1 = (2.0 - omega0 * omega0 * dt * dt) / denominator;
        let a2 = -(1.0 - gamma * dt / 2.0) / denominator;
        [a1, a2, strength * dt * dt / denominator]
    };
    match pole {
        Pole::Lorentz { delta_eps, omega0, gamma } => second_order(delta_eps * omega0 * omega0, omega0, gamma),
        Pole::Drude { omega_p, gamma } => second_order(omega_p * omega_p, 0.0, gamma),
        Pole::Debye { delta_eps, tau } => [1.0 - dt / tau, 0.0, delta_eps * dt / tau],
    }
}

/// The permittivity that the recursions amount to at a frequency.
fn permittivity(material: &Material, frequency: f64, cells: &Cells) -> Complex {
    let (dt, eps0) = (cells.dt, cells.constants.eps0());
    let half = PI * frequency * dt;
    let turn = Complex::turn(2.0 * half);
    let loss = Complex::new(0.0, -material.sigma * dt / (2.0 * eps0 * half.tan()));
    let pole = |pole: &Pole| {
        let [a1, a2, a3] = recursion(*pole, dt).map(|a| Complex::new(a, 0.0));
        a3 / (turn - a1 - a2 / turn)
    };
    material.poles.iter().map(pole).fold(Complex::new(material.eps_inf, 0.0) + loss, |sum, chi| sum + chi)
}

/// From a wave that leaves behind the slab back to the front, plane by plane, for μ = 1: E_(k-1) = (2 - 4 s² ε_k) E_k - E_(k+1) with
/// s = sin(ω dt/2) d/(c dt).
pub fn slab(material: &Material, cells: &Cells, frequency: f64) -> Answer {
    let s = (PI * frequency * cells.dt).sin() * cells.d / (cells.constants.c0() * cells.dt);
    let q = Complex::turn(-2.0 * s.asin());
    let before = |eps: Complex, here: Complex, next: Complex| (Complex::new(2.0, 0.0) - eps.scale(4.0 * s * s)) * here - next;
    let inside = permittivity(material, frequency, cells);
    // the first plane of air behind the slab, and the slab's last
    let (mut next, mut here) = (ONE, before(ONE, ONE, q));
    let mut air = q;
    for _ in 0..cells.count {
        (next, here) = (here, before(inside, here, next));
        air = air * q;
    }
    // two planes of air in front: a wave that comes and one that goes back
    let first = before(ONE, here, next);
    let coming = (first - q * here) / (ONE / q - q);
    Answer { transmission: ONE / (coming * air), reflection: (here - coming) / coming, q }
}

#[cfg(test)]
mod tests {
    use super::*;
    use crate::{CONSTANTS, theory};

    /// With cells a thousandth of a wavelength the difference equations are the wave equation, nearly.
    #[test]
    fn on_fine_cells_it_is_the_theory() {
        let water = Material::plain(5.6).with_pole(Pole::Debye { delta_eps: 74.6, tau: 9.36e-12 });
        let (count, d) = (1000, 3.7e-6);
        let cells = Cells { count, d, dt: 0.01 * d / CONSTANTS.c0(), constants: CONSTANTS };
        let (scheme, theory) = (slab(&water, &cells, 1e10), theory::slab(&water, count as f64 * d, 1e10, CONSTANTS));
        assert!((scheme.transmission - theory.transmission).norm() < 1e-4);
        // half a cell lies between the last plane of air and the slab's front
        assert!((scheme.reflection * Complex::turn(2.0 * PI * 1e10 / CONSTANTS.c0() * d) - theory.reflection).norm() < 1e-4);
    }
}
