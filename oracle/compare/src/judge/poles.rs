//! Which poles can be stepped: document 02's S-2. The coefficients are the original's (dispersion.rs), written once
//! more in its order of roundings.

use crate::engine::block::{Material, Pole, Record};

/// The original's, and that of CODATA 2018 as S-7 states it.
const EPS0: f64 = 8.854187817e-12;
const EPS0_2019: f64 = 8.8541878128e-12;

/// Of a set of constants; a record with another number than 0 and 1 is refused before a pole is looked at.
fn eps0(constants: u8) -> f64 {
    match constants {
        0 => EPS0,
        _ => EPS0_2019,
    }
}

/// a1, a2 and a3.
pub fn coefficients(pole: &Pole, constants: u8, dt: f64) -> [f64; 3] {
    let eps0 = eps0(constants);
    let [first, second, third] = pole.numbers;
    match pole.tag {
        1 => second_order(eps0, first * second * second, [second, third], dt),
        2 => second_order(eps0, first * first, [0.0, second], dt),
        _ => [1.0 - dt / second, 0.0, eps0 * first * dt / second],
    }
}

fn second_order(eps0: f64, a: f64, [omega0, gamma]: [f64; 2], dt: f64) -> [f64; 3] {
    let denom = 1.0 + gamma * dt / 2.0;
    [
        (2.0 - omega0 * omega0 * dt * dt) / denom,
        -(1.0 - gamma * dt / 2.0) / denom,
        eps0 * a * dt * dt / denom,
    ]
}

/// Whether it can be stepped.
pub fn passes(pole: &Pole, constants: u8, dt: f64) -> bool {
    let coefficients = coefficients(pole, constants, dt);
    coefficients.iter().all(|a| a.is_finite())
}

/// Whether all poles of a material pass by the record's constants and time step.
pub fn all_pass(material: &Material, record: &Record) -> bool {
    let (constants, dt) = (record.constants, record.spacings[3]);
    material
        .poles
        .iter()
        .all(|pole| passes(pole, constants, dt))
}

/// The first material of a record that has a pole which does not.
pub fn first_bad(record: &Record) -> Option<usize> {
    record.materials.iter().position(|m| !all_pass(m, record))
}
