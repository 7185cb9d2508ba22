//! Materials: what they answer at once, and their poles.

use crate::bindings::ade_coeffs;
use crate::constants::Constants;
use crate::refusal::Refusal;
use crate::spectrum::Complex;
use crate::stores::{MATERIAL_LENGTH, MAX_POLE_SLOTS};
use std::f64::consts::PI;

/// A pole of the permittivity. Angular frequencies and rates in rad/s, times in s.
#[derive(Debug, Clone, Copy, PartialEq)]
pub enum Pole {
    Lorentz { delta_eps: f64, omega0: f64, gamma: f64 },
    Drude { omega_p: f64, gamma: f64 },
    Debye { delta_eps: f64, tau: f64 },
}

impl Pole {
    /// What it adds to the relative permittivity at an angular frequency.
    fn susceptibility(self, omega: f64) -> Complex {
        let (strength, denominator) = match self {
            Pole::Lorentz { delta_eps, omega0, gamma } => {
                (delta_eps * omega0 * omega0, Complex::new(omega0 * omega0 - omega * omega, gamma * omega))
            }
            Pole::Drude { omega_p, gamma } => (omega_p * omega_p, Complex::new(-omega * omega, gamma * omega)),
            Pole::Debye { delta_eps, tau } => (delta_eps, Complex::new(1.0, omega * tau)),
        };
        Complex::new(strength, 0.0) / denominator
    }

    /// a1, a2 and a3 of the recursion P' = a1 P + a2 P₋ + a3 E by which the engine steps it, for a time step in s. Where one of them is not finite the pole cannot be
    /// stepped: that is `BadPole`, and a study takes no material with it.
    pub fn ade_coeffs(self, dt: f64, constants: Constants) -> Result<[f64; 3], Refusal> {
        let ((tag, numbers), mut coeffs) = (self.tagged(), [0.0; 3]);
        Refusal::check(ade_coeffs(tag.into(), numbers, constants.eps0(), dt, &mut coeffs))?;
        Ok(coeffs)
    }

    /// What it adds to the relative permittivity for a field that changes its sign at each step of dt, by its recursion. Where that does not come to rest by itself,
    /// or the pole cannot be stepped, it has no such number.
    fn alternating(self, dt: f64, constants: Constants) -> f64 {
        let Ok([a1, a2, a3]) = self.ade_coeffs(dt, constants) else { return f64::NEG_INFINITY };
        let turned = 1.0 + a1 - a2;
        if a3 == 0.0 {
            0.0
        } else if turned > 0.0 {
            -a3 / (constants.eps0() * turned)
        } else {
            f64::NEG_INFINITY
        }
    }

    /// From its tag in a save and its numbers; None for a tag that is none.
    fn from_tagged(tag: u8, [first, second, third]: [f64; 3]) -> Option<Self> {
        match tag {
            1 => Some(Pole::Lorentz { delta_eps: first, omega0: second, gamma: third }),
            2 => Some(Pole::Drude { omega_p: first, gamma: second }),
            3 => Some(Pole::Debye { delta_eps: first, tau: second }),
            _ => None,
        }
    }

    /// Its tag in a save, and its numbers in the Rust's field order.
    fn tagged(self) -> (u8, [f64; 3]) {
        match self {
            Pole::Lorentz { delta_eps, omega0, gamma } => (1, [delta_eps, omega0, gamma]),
            Pole::Drude { omega_p, gamma } => (2, [omega_p, gamma, 0.0]),
            Pole::Debye { delta_eps, tau } => (3, [delta_eps, tau, 0.0]),
        }
    }
}

/// Where a pole begins in a material's bytes: each is a tag and three numbers, behind three numbers and the count.
pub fn pole_place(number: usize) -> usize {
    25 + 25 * number
}

/// A material: relative permittivity at high frequencies, conductivity in S/m, relative permeability, poles.
#[derive(Debug, Clone, PartialEq)]
pub struct Material {
    pub eps_inf: f64,
    pub sigma: f64,
    pub mu_r: f64,
    pub poles: Vec<Pole>,
}

impl Material {
    /// One without loss and poles.
    pub fn plain(eps_inf: f64) -> Self {
        Self { eps_inf, sigma: 0.0, mu_r: 1.0, poles: Vec::new() }
    }

    pub fn with_sigma(mut self, sigma: f64) -> Self {
        self.sigma = sigma;
        self
    }

    pub fn with_pole(mut self, pole: Pole) -> Self {
        self.poles.push(pole);
        self
    }

    /// The relative permittivity at a frequency in Hz, the conductivity in it by ε0 of the constants, for fields that go as exp(2πi f t): loss makes its imaginary
    /// part negative.
    pub fn permittivity(&self, frequency: f64, constants: Constants) -> Complex {
        let omega = 2.0 * PI * frequency;
        let loss = Complex::new(0.0, -self.sigma / (omega * constants.eps0()));
        let poles = self.poles.iter().map(|pole| pole.susceptibility(omega));
        poles.fold(Complex::new(self.eps_inf, 0.0) + loss, |sum, chi| sum + chi)
    }

    /// Its poles that cannot be stepped with this time step in s and these constants, by their numbers from 0 on: `Pole::ade_coeffs` refuses them, and so does a
    /// study that the material is added to.
    pub fn bad_poles(&self, dt: f64, constants: Constants) -> Vec<usize> {
        let is_bad = |number: &usize| self.poles.get(*number).is_some_and(|pole| pole.ade_coeffs(dt, constants).is_err());
        (0..self.poles.len()).filter(is_bad).collect()
    }

    /// What its poles add to the relative permittivity for a field that changes its sign at each step of dt: as a rule less than nothing. A grid of one material is
    /// stable up to √(μ_r (eps_inf + this)) times the Courant number of vacuum, since there the fastest wave begins to grow with its sign turning.
    pub fn alternating(&self, dt: f64, constants: Constants) -> f64 {
        self.poles.iter().map(|pole| pole.alternating(dt, constants)).sum()
    }

    /// As the engine takes it, and as it stands in a save. There are four places; more poles are counted, so that the engine turns the material down.
    pub fn bytes(&self) -> [u8; MATERIAL_LENGTH] {
        let mut bytes = [0; MATERIAL_LENGTH];
        let mut put = |at: usize, from: &[u8]| bytes[at..at + from.len()].copy_from_slice(from);
        put(0, &self.eps_inf.to_le_bytes());
        put(8, &self.sigma.to_le_bytes());
        put(16, &self.mu_r.to_le_bytes());
        put(24, &[u8::try_from(self.poles.len()).unwrap_or(u8::MAX)]);
        for (place, pole) in self.poles.iter().take(MAX_POLE_SLOTS).enumerate() {
            let (at, (tag, numbers)) = (pole_place(place), pole.tagged());
            put(at, &[tag]);
            for (which, number) in numbers.iter().enumerate() {
                put(at + 1 + 8 * which, &number.to_le_bytes());
            }
        }
        bytes
    }

    /// From such bytes; None where more poles are counted than there are places, or one has a tag that is none.
    pub fn from_bytes(bytes: &[u8; MATERIAL_LENGTH]) -> Option<Self> {
        let double = |at: usize| bytes.get(at..)?.first_chunk().copied().map(f64::from_le_bytes);
        let pole = |number: usize| {
            let at = pole_place(number);
            Pole::from_tagged(*bytes.get(at)?, [double(at + 1)?, double(at + 9)?, double(at + 17)?])
        };
        let poles = (0..usize::from(bytes[24])).map(pole).collect::<Option<_>>()?;
        Some(Self { eps_inf: double(0)?, sigma: double(8)?, mu_r: double(16)?, poles })
    }
}
