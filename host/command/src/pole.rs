//! A pole that cannot be stepped, told to whoever wrote it.

use cichowiej::{Constants, Grid, Material, Pole, Refusal};

/// One of a material's poles, and the time step with which it cannot be stepped.
#[derive(Debug, Clone, Copy)]
pub struct BadPole {
    /// In its material, from 0 on.
    pub number: usize,
    pub pole: Pole,
    pub dt: f64,
}

impl BadPole {
    /// All of a material's.
    pub fn all(material: &Material, dt: f64, constants: Constants) -> Vec<Self> {
        let numbers = material.bad_poles(dt, constants).into_iter();
        numbers.filter_map(|number| Some(Self { number, pole: *material.poles.get(number)?, dt })).collect()
    }

    /// The first one of a material that a study of this grid has refused; None where it was refused for something else.
    pub fn refused(refusal: Refusal, material: &Material, grid: &Grid) -> Option<Self> {
        if refusal != Refusal::BadPole {
            return None;
        }
        Self::all(material, grid.dt, grid.constants).into_iter().next()
    }

    /// That it cannot be stepped, `owner` being what it is a pole of.
    pub fn told(&self, owner: &str) -> String {
        format!("pole {} of {owner}, {}, cannot be stepped with dt = {:?} s", self.number, described(self.pole), self.dt)
    }

    /// What to change.
    pub fn advice(&self) -> &'static str {
        if self.is_instant() {
            "a relaxation time of 0? take one above 0"
        } else {
            "take other numbers for it, or another time step: a1, a2 or a3 of its recursion is not finite"
        }
    }

    /// The refusal of a call that it was handed to.
    pub fn message(&self, owner: &str) -> String {
        format!("refused as {}: {}: {}", Refusal::BadPole.title(), self.told(owner), self.advice())
    }

    /// Its key in a head, given its material's.
    pub fn key(&self, material: &str) -> String {
        let value = if self.is_instant() { ".debye.tau" } else { "" };
        format!("{material}.poles[{}]{value}", self.number)
    }

    fn is_instant(&self) -> bool {
        matches!(self.pole, Pole::Debye { tau, .. } if tau == 0.0)
    }
}

/// Its kind and its numbers.
fn described(pole: Pole) -> String {
    let (kind, numbers) = match pole {
        Pole::Lorentz { delta_eps, omega0, gamma } => (
            "Lorentz",
            format!("delta_eps = {}, omega0 = {} rad/s and gamma = {} rad/s", shown(delta_eps), shown(omega0), shown(gamma)),
        ),
        Pole::Drude { omega_p, gamma } => {
            ("Drude", format!("omega_p = {} rad/s and gamma = {} rad/s", shown(omega_p), shown(gamma)))
        }
        Pole::Debye { delta_eps, tau } => ("Debye", format!("delta_eps = {} and tau = {} s", shown(delta_eps), shown(tau))),
    };
    format!("{kind} with {numbers}")
}

/// All its digits, and no row of zeros.
fn shown(number: f64) -> String {
    if number.abs() < 1e6 { format!("{number:?}") } else { format!("{number:e}") }
}
