//! A slab in air at normal incidence: the closed form of its transfer matrix (Born and Wolf, Principles of Optics, section 1.6).

use cichowiej::{Complex, Constants, Material};
use std::f64::consts::PI;

/// Transmission against the same way through air, and reflection at the slab's front, for fields that go as exp(2πi f t).
#[derive(Debug, Clone, Copy)]
pub struct Slab {
    pub transmission: Complex,
    pub reflection: Complex,
}

pub const ONE: Complex = Complex::new(1.0, 0.0);

/// The square root whose imaginary part is not positive: a wave that goes on into the slab decays.
fn decaying_root(x: Complex) -> Complex {
    let r = x.norm();
    let re = ((r + x.re) / 2.0).max(0.0).sqrt();
    let im = ((r - x.re) / 2.0).max(0.0).sqrt();
    Complex::new(re, -im)
}

/// √(ε μ)
pub fn index(material: &Material, frequency: f64, constants: Constants) -> Complex {
    decaying_root(material.permittivity(frequency, constants).scale(material.mu_r))
}

/// exp(-i k d) for a complex k d.
fn carried(kd: Complex) -> Complex {
    Complex::turn(-kd.re).scale(kd.im.exp())
}

/// With n = √(ε μ), Z = μ / n and Γ = (Z - 1)/(Z + 1): T = (1 - Γ²) e / (1 - Γ² e²), R = Γ (1 - e²) / (1 - Γ² e²), e = exp(-i k n d).
pub fn slab(material: &Material, thickness: f64, frequency: f64, constants: Constants) -> Slab {
    let index = index(material, frequency, constants);
    let impedance = Complex::new(material.mu_r, 0.0) / index;
    let gamma = (impedance - ONE) / (impedance + ONE);
    let k = 2.0 * PI * frequency / constants.c0();
    let through = carried(index.scale(k * thickness));
    let twice = through * through;
    let square = gamma * gamma;
    let around = ONE - square * twice;
    let air = Complex::turn(-k * thickness);
    Slab { transmission: (ONE - square) * through / around / air, reflection: gamma * (ONE - twice) / around }
}

#[cfg(test)]
mod tests {
    use super::*;
    use crate::CONSTANTS;
    use cichowiej::Pole;

    /// From the matrix itself, whose rows are cos β, i Z sin β and i sin β / Z, cos β:
    /// 1 + r = t (cos β + i Z sin β), 1 - r = t (cos β + i sin β / Z).
    fn by_matrix(material: &Material, thickness: f64, frequency: f64) -> Slab {
        let index = index(material, frequency, CONSTANTS);
        let z = Complex::new(material.mu_r, 0.0) / index;
        let k = 2.0 * PI * frequency / CONSTANTS.c0();
        let down = carried(index.scale(k * thickness));
        let up = ONE / down;
        let (cos, i_sin) = ((up + down).scale(0.5), (up - down).scale(0.5));
        let (electric, magnetic) = (cos + z * i_sin, cos + i_sin / z);
        let t = Complex::new(2.0, 0.0) / (electric + magnetic);
        Slab { transmission: t / Complex::turn(-k * thickness), reflection: t * electric - ONE }
    }

    #[test]
    fn the_closed_form_is_the_matrix() {
        let water = Material::plain(5.6).with_pole(Pole::Debye { delta_eps: 74.6, tau: 9.36e-12 });
        let magnetic = Material { mu_r: 2.5, ..Material::plain(3.0).with_sigma(0.2) };
        for material in [Material::plain(4.0), water, magnetic] {
            for frequency in [1e9, 3.7e9, 1e10] {
                let (a, b) = (slab(&material, 3.1e-3, frequency, CONSTANTS), by_matrix(&material, 3.1e-3, frequency));
                assert!((a.transmission - b.transmission).norm() < 1e-12 && (a.reflection - b.reflection).norm() < 1e-12);
            }
        }
    }

    #[test]
    fn nothing_is_lost_in_a_plain_slab() {
        let slab = slab(&Material::plain(4.0), 7e-3, 9e9, CONSTANTS);
        assert!((slab.transmission.norm().powi(2) + slab.reflection.norm().powi(2) - 1.0).abs() < 1e-12);
    }
}
