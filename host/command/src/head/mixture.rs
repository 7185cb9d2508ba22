//! The wet sheet as a mixture of fibre, water and air, each part by its share of the volume.

use crate::pole::BadPole;
use cichowiej::{Grid, Material, Pole};
use thiserror::Error;

/// What a mill knows of a sheet. Everything in SI.
#[derive(Debug, Clone)]
pub struct Paper {
    /// Of the oven-dry sheet.
    pub grammage: f64,
    pub caliper: f64,
    pub fibre: Material,
    pub fibre_density: f64,
    pub water: Material,
    pub water_density: f64,
}

#[derive(Debug, Clone, Copy, PartialEq, Error)]
pub enum Misfit {
    #[error("a moisture of {0} % is not between 0 and 100")]
    NoMoisture(f64),
    #[error(
        "fibre and water together fill {0:.3} of the sheet's volume: the caliper is too small for the grammage, or a density too low (numbers without a unit are in kg/m2, kg/m3 and m)"
    )]
    TooDense(f64),
}

/// Shares of the sheet's volume.
#[derive(Debug, Clone, Copy, PartialEq)]
pub struct Shares {
    pub fibre: f64,
    pub water: f64,
    pub air: f64,
}

impl Paper {
    /// The shares at a moisture in percent of the wet sheet's weight, as the oven's weighing gives it.
    pub fn shares(&self, moisture: f64) -> Result<Shares, Misfit> {
        if !(0.0..100.0).contains(&moisture) {
            return Err(Misfit::NoMoisture(moisture));
        }
        let water = self.grammage * moisture / (100.0 - moisture);
        let shares = |air| Shares {
            fibre: self.grammage / self.fibre_density / self.caliper,
            water: water / self.water_density / self.caliper,
            air,
        };
        let full = shares(0.0);
        let air = 1.0 - full.fibre - full.water;
        if air >= 0.0 { Ok(shares(air)) } else { Err(Misfit::TooDense(full.fibre + full.water)) }
    }

    /// The linear mixture: ε of the sheet is the sum of the parts' ε, each times its share.
    pub fn mixed(&self, moisture: f64) -> Result<Material, Misfit> {
        let shares = self.shares(moisture)?;
        let parts = self.parts(shares);
        let sum = |of: fn(&Material) -> f64| parts.iter().map(|(_, share, part)| share * of(part)).sum::<f64>();
        Ok(Material {
            eps_inf: shares.air + sum(|part| part.eps_inf),
            sigma: sum(|part| part.sigma),
            mu_r: 1.0,
            poles: parts.iter().flat_map(|(_, share, part)| poles(part, *share)).map(|(_, pole)| pole).collect(),
        })
    }

    /// The parts with poles, by their names, each with its share.
    fn parts(&self, shares: Shares) -> [(&'static str, f64, &Material); 2] {
        [("fibre", shares.fibre, &self.fibre), ("water", shares.water, &self.water)]
    }

    /// The part whose pole cannot be stepped at its share, with the pole as it is by itself.
    pub fn bad_pole(&self, shares: Shares, grid: &Grid) -> Option<(&'static str, BadPole)> {
        let is_bad = |pole: &Pole| pole.ade_coeffs(grid.dt, grid.constants).is_err();
        self.parts(shares).into_iter().find_map(|(name, share, part)| {
            let (number, _) = poles(part, share).find(|(_, pole)| is_bad(pole))?;
            Some((name, BadPole { number, pole: *part.poles.get(number)?, dt: grid.dt }))
        })
    }
}

/// The poles that a part has in the mixture, with their numbers in the part. A share of 0 has none to step.
fn poles(part: &Material, share: f64) -> impl Iterator<Item = (usize, Pole)> {
    let all = part.poles.iter().map(move |pole| scaled(*pole, share)).enumerate();
    all.filter(|(_, pole)| strength(*pole) != 0.0)
}

/// A pole of a part that has a share of the volume.
fn scaled(pole: Pole, share: f64) -> Pole {
    match pole {
        Pole::Lorentz { delta_eps, omega0, gamma } => Pole::Lorentz { delta_eps: share * delta_eps, omega0, gamma },
        Pole::Drude { omega_p, gamma } => Pole::Drude { omega_p: share.sqrt() * omega_p, gamma },
        Pole::Debye { delta_eps, tau } => Pole::Debye { delta_eps: share * delta_eps, tau },
    }
}

fn strength(pole: Pole) -> f64 {
    match pole {
        Pole::Lorentz { delta_eps, .. } | Pole::Debye { delta_eps, .. } => delta_eps,
        Pole::Drude { omega_p, .. } => omega_p,
    }
}

#[cfg(test)]
mod tests {
    use super::*;
    use cichowiej::Constants;

    fn paper() -> Paper {
        Paper {
            grammage: 0.08,
            caliper: 1e-4,
            fibre: Material::plain(4.0),
            fibre_density: 1600.0,
            water: Material::plain(5.0).with_pole(Pole::Debye { delta_eps: 75.0, tau: 8e-12 }),
            water_density: 1000.0,
        }
    }

    #[test]
    fn a_dry_sheet_is_fibre_and_air() {
        let dry = paper().mixed(0.0).unwrap();
        assert!((dry.eps_inf - (0.5 + 0.5 * 4.0)).abs() < 1e-12 && dry.poles.is_empty());
    }

    #[test]
    fn water_adds_its_share() {
        // a fifth of the wet sheet's weight: 20 g of water to 80 g of fibre in 100 cm3
        let shares = paper().shares(20.0).unwrap();
        assert!((shares.water - 0.2).abs() < 1e-12 && (shares.air - 0.3).abs() < 1e-12);
        let wet = paper().mixed(20.0).unwrap();
        assert!((wet.eps_inf - (0.3 + 2.0 + 1.0)).abs() < 1e-12);
        let Pole::Debye { delta_eps, tau } = wet.poles[0] else { panic!() };
        assert!((delta_eps - 15.0).abs() < 1e-12 && tau == 8e-12);
    }

    /// A strength that is too large by itself, and not in half of the volume; and a share of 0.
    #[test]
    fn a_pole_is_judged_at_its_share() {
        let grid = Grid { cells: [1; 3], pitch: [1e-3; 3], dt: 1.0, pole_slots: 4, constants: Constants::Old };
        let strong = Pole::Debye { delta_eps: 1.7e308, tau: 0.9 * grid.constants.eps0() };
        let instant = Pole::Debye { delta_eps: 2.0, tau: 0.0 };
        assert!(strong.ade_coeffs(grid.dt, grid.constants).is_err());
        let bad = |fibre: Pole, water: Pole, moisture: f64| {
            let with = |pole: Pole| Material::plain(4.0).with_pole(pole);
            let paper = Paper { fibre: with(fibre), water: with(water), ..paper() };
            let found = paper.bad_pole(paper.shares(moisture).unwrap(), &grid).map(|(name, bad)| (name, bad.pole));
            let mixed = paper.mixed(moisture).unwrap();
            assert_eq!(found.is_some(), !mixed.bad_poles(grid.dt, grid.constants).is_empty());
            found
        };
        assert_eq!(bad(strong, instant, 20.0), Some(("water", instant)));
        assert_eq!(bad(instant, strong, 20.0), Some(("fibre", instant)));
        assert_eq!((bad(strong, instant, 0.0), bad(strong, strong, 20.0)), (None, None));
    }

    #[test]
    fn what_does_not_fit_is_told() {
        assert!(matches!(paper().mixed(100.0), Err(Misfit::NoMoisture(_))));
        assert!(matches!(paper().mixed(f64::NAN), Err(Misfit::NoMoisture(_))));
        assert!(matches!(paper().mixed(60.0), Err(Misfit::TooDense(_))));
    }
}
