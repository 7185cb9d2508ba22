//! Why a save is not taken up: it is damaged, or it is whole and from an older library, which took poles that cannot be stepped.

use crate::pole::BadPole;
use crate::standing::list::counted;
use crate::standing::note::Numbers;
use crate::standing::records::{self, FRAME_LENGTH, constants, double, payload};
use cichowiej::{MATERIAL_LENGTH, Material, Pole, Refusal, Study, pole_place};
use std::io::Read;
use std::path::Path;

/// What is wrong with a save.
pub struct Fault {
    message: String,
    /// Of a save that is whole: the engine would take it but for its poles.
    pub older: Option<Box<Older>>,
}

/// A whole save with poles that cannot be stepped.
pub struct Older {
    /// What is told of it where it is not whole after all.
    refused: String,
    /// What is told of it in the list.
    pub brief: String,
    /// What its note has to say of it.
    pub numbers: Numbers,
}

impl Fault {
    /// Of what is damaged, or no save.
    pub fn damage(message: String) -> Self {
        Self { message, older: None }
    }

    /// The same of bytes that are not those which were kept.
    pub fn of_others(self, other: &str) -> Self {
        let refused = self.older.map_or(self.message, |older| older.refused);
        Self::damage(format!("{refused}; {other}"))
    }

    /// With the file's name before it.
    pub fn named(self, file: &Path) -> Self {
        Self { message: format!("{}: {}", file.display(), self.message), ..self }
    }
}

impl From<Fault> for String {
    fn from(fault: Fault) -> Self {
        fault.message
    }
}

/// A pole of a save that cannot be stepped with the save's dt and constants, and where it begins in the save.
struct Place {
    material: usize,
    pole: BadPole,
    at: usize,
}

/// One that can be stepped, with any time step.
const IDLE: Pole = Pole::Debye { delta_eps: 0.0, tau: 1.0 };

/// A save and its study. Where the engine refuses it for its poles, it judges the rest with others in their places.
pub fn take_up(mut save: Vec<u8>) -> Result<(Vec<u8>, Study), Fault> {
    let refusal = match Study::from_save(&save) {
        Ok(study) => return Ok((save, study)),
        Err(refusal) => refusal,
    };
    let places = bad_poles(&save[..]);
    let Some(first) = places.first() else { return Err(Fault::damage(refused(refusal))) };
    let told = format!("refused as {}: {}", refusal.title(), told(first, places.len() - 1));
    places.iter().for_each(|place| mend(&mut save, place.at));
    Err(match Study::from_save(&save) {
        Ok(study) => whole(first, told, Numbers::of(&study, save.len())),
        Err(rest) => Fault::damage(format!("{told}; and it is damaged too: but for that {}", refused(rest))),
    })
}

/// The first pole, and how many there are beside it.
fn told(first: &Place, others: usize) -> String {
    let others = if others == 0 { String::new() } else { format!(", nor can {} more", counted(others, "pole")) };
    format!("{} ({}){others}", first.pole.told(&format!("material {}", first.material)), Refusal::BadPole.title())
}

fn whole(first: &Place, refused: String, numbers: Numbers) -> Fault {
    let Place { material, pole, .. } = first;
    let message = format!(
        "whole, but {refused}; an older library took it, and where it was built and stepped the fields are NaN: open the study anew with the pole mended ({})",
        pole.advice()
    );
    let brief = format!("pole {} of material {material} cannot be stepped: {}", pole.number, Refusal::BadPole.title());
    Fault { message, older: Some(Box::new(Older { refused, brief, numbers })) }
}

/// Of a save without such a pole, or with none any more: the refusal's own words leave open whether there is one.
fn refused(refusal: Refusal) -> String {
    match refusal {
        Refusal::BadRecord => format!("refused as {}: take another copy of the save: this one is damaged", refusal.title()),
        _ => format!("refused as {refusal}"),
    }
}

fn mend(save: &mut [u8], at: usize) {
    let idle = Material::plain(1.0).with_pole(IDLE).bytes();
    let places = save.iter_mut().skip(at);
    places.zip(&idle[pole_place(0)..pole_place(1)]).for_each(|(byte, idle)| *byte = *idle);
}

/// Whether the first two records of a save, which are all that is read of it, have such a pole.
pub fn has_bad_pole(save: impl Read) -> bool {
    !bad_poles(save).is_empty()
}

/// All of them; none where the first two records cannot be read.
fn bad_poles(save: impl Read) -> Vec<Place> {
    places(save).unwrap_or_default()
}

fn places(mut save: impl Read) -> Option<Vec<Place>> {
    let grid = payload(&mut save, "GH").and_then(records::whole).ok()?;
    let materials = payload(&mut save, "ML").and_then(records::whole).ok()?;
    let (dt, constants) = (double(&grid, 53)?, constants(&grid)?);
    let begin = 2 * FRAME_LENGTH + grid.len();
    let of = |(material, bytes): (usize, &[u8; MATERIAL_LENGTH])| {
        let poles = Material::from_bytes(bytes).map_or(Vec::new(), |material| BadPole::all(&material, dt, constants));
        let at = begin + MATERIAL_LENGTH * material;
        poles.into_iter().map(move |pole| Place { material, pole, at: at + pole_place(pole.number) })
    };
    Some(materials.as_chunks().0.iter().enumerate().flat_map(of).collect())
}

#[cfg(test)]
mod tests {
    use super::*;
    use cichowiej::{Constants, Grid};

    const INSTANT: Pole = Pole::Debye { delta_eps: 2.0, tau: 0.0 };

    fn grid(dt: f64, constants: Constants) -> Grid {
        Grid { cells: [1, 2, 3], pitch: [1e-3; 3], dt, pole_slots: 2, constants }
    }

    /// A save with materials of two poles each: these, whether the engine takes them or not.
    fn saved(grid: &Grid, materials: &[[Pole; 2]]) -> Vec<u8> {
        let material = |poles: &[Pole; 2]| Material { poles: poles.to_vec(), ..Material::plain(2.0) };
        let mut study = Study::open(grid).unwrap();
        materials.iter().for_each(|_| assert!(study.add_material(&material(&[IDLE; 2])).is_ok()));
        let (mut save, idle) = (study.save().unwrap(), material(&[IDLE; 2]).bytes());
        let first = save.windows(MATERIAL_LENGTH).position(|bytes| bytes == idle).unwrap();
        for (place, poles) in save[first..].chunks_exact_mut(MATERIAL_LENGTH).zip(materials) {
            place.copy_from_slice(&material(poles).bytes());
        }
        save
    }

    /// What is told of a whole save with such poles, and of its first one in the list; None where it is taken up.
    fn told(save: Vec<u8>) -> Option<(String, String)> {
        let fault = take_up(save).err()?;
        let brief = fault.older.as_ref().map(|older| older.brief.clone());
        Some((String::from(fault), brief.unwrap()))
    }

    #[test]
    fn poles_are_judged_with_the_saves_own_time_step_and_constants() {
        let edge = Pole::Debye { delta_eps: 1.7e308, tau: f64::from_bits(0x3DA269973FB889A1) };
        let short = Pole::Debye { delta_eps: 2.0, tau: 0.5f64.powi(1024) };
        for (pole, dt, constants, is_bad) in [
            (edge, 1.0, Constants::Old, true),
            (edge, 1.0, Constants::Si2019, false),
            (short, 1.0, Constants::Old, true),
            (short, 0.5, Constants::Old, false),
        ] {
            let save = saved(&grid(dt, constants), &[[IDLE, pole]]);
            assert_eq!(has_bad_pole(&save[..]), is_bad, "{pole:?} {dt} {constants}");
            let brief = told(save).map(|(_, brief)| brief);
            assert_eq!(brief, is_bad.then(|| "pole 1 of material 1 cannot be stepped: 19 BadPole".into()));
        }
    }

    /// In the older first record, too, which is a byte shorter.
    #[test]
    fn the_first_of_them_is_named_and_the_others_are_counted() {
        let save = saved(&grid(1e-12, Constants::Old), &[[IDLE; 2], [IDLE, INSTANT], [INSTANT; 2]]);
        let shorter = [b"GH", &[73, 0, 0, 0][..], &save[6..79], &save[80..]].concat();
        let pole = "whole, but refused as 15 BadRecord: pole 1 of material 2, Debye with delta_eps = 2.0 and tau = 0.0 s, cannot be stepped with dt = 1e-12 s (19 BadPole), nor can 2 poles more; ";
        for save in [save, shorter] {
            let (text, _) = told(save).unwrap();
            assert!(text.starts_with(pole), "{text}");
        }
    }

    #[test]
    fn a_beginning_shows_a_pole_once_it_has_the_materials() {
        let save = saved(&grid(1e-12, Constants::Old), &[[IDLE, INSTANT]]);
        let materials = 2 * FRAME_LENGTH + 74 + 2 * MATERIAL_LENGTH;
        for end in 0..save.len() {
            assert_eq!(has_bad_pole(&save[..end]), end >= materials, "{end}");
            assert!(take_up(save[..end].to_vec()).is_err_and(|fault| fault.older.is_none()), "{end}");
        }
    }
}
