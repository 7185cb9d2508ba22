//! A material that the engine does not take, by the key in the head's file that is the reason.

use crate::curve::plan::{Plan, Point, WetSheet};
use crate::head::trouble::Trouble;
use crate::pole::BadPole;
use cichowiej::{Material, Refusal};

impl Plan<'_> {
    /// One of the head's own.
    pub fn material_refused(&self, name: &str, material: &Material, refusal: Refusal) -> Trouble {
        let key = format!("materials.{name}");
        match BadPole::refused(refusal, material, &self.grid) {
            Some(bad) => of_pole(&bad, &key, &format!("material {name:?}")),
            None => Trouble::refused(key, refusal),
        }
    }

    /// The sheet at a moisture. In a mixture a pole is one of fibre or water.
    pub fn sheet_refused(&self, point: &Point, sheet: &WetSheet, refusal: Refusal) -> Trouble {
        let owner = format!("the sheet at {}", point.name());
        let Some(bad) = BadPole::refused(refusal, &sheet.material, &self.grid) else {
            return Trouble::refused(&point.key, refusal);
        };
        let paper = self.head.sheet.paper.as_ref().zip(sheet.shares);
        match paper.and_then(|(part, shares)| part.paper().bad_pole(shares, &self.grid)) {
            Some((part, bad)) => of_pole(&bad, &format!("sheet.paper.{part}.material"), &format!("{part}, in {owner}")),
            None => of_pole(&bad, &format!("{}.material", point.key), &owner),
        }
    }
}

fn of_pole(bad: &BadPole, material: &str, owner: &str) -> Trouble {
    Trouble::at(bad.key(material), bad.message(owner))
}
