//! All that is known of a save.

use crate::curve::named;
use crate::standing::list::{counted, product};
use crate::standing::note::Note;
use crate::standing::{Kept, Noted, Standing, short};
use crate::text::plain;

/// A line's name and text.
type Named = (&'static str, String);

pub fn show(standing: &Standing, id: &str) -> Result<String, String> {
    let save = standing.kept(id)?;
    let noted = standing.note(id);
    let mut lines = vec![("id", id.to_string())];
    lines.extend(of_note(standing, &noted, &save));
    lines.extend(children(standing, id)?);
    lines.extend(of_save(&save)?);
    Ok(lines.into_iter().map(|(name, text)| format!("{name:<15} {text}\n")).collect())
}

fn of_note(standing: &Standing, noted: &Noted, save: &Kept) -> Vec<Named> {
    let note = match noted {
        Noted::Nothing => return vec![("note", "none: keep the save again to give it one".into())],
        Noted::Damaged(message) => return vec![("note damaged", plain(message))],
        Noted::Whole(note) => note,
    };
    let label = plain(note.label.as_deref().unwrap_or("none"));
    let parent = note.grew_from.as_deref().map_or("nothing kept".into(), |id| called(standing, id));
    let damage = note.disagreement(&save.numbers()).map(|message| ("note damaged", message));
    [("label", label), ("kept", note.kept.clone()), ("grew from", parent)].into_iter().chain(damage).collect()
}

/// A save by its digits and label.
fn called(standing: &Standing, id: &str) -> String {
    let noted = standing.note(id);
    let label = noted.whole().and_then(|note| note.label.as_deref()).map_or(String::new(), |label| format!("  {}", plain(label)));
    let gone = if standing.save_path(id).exists() { "" } else { "  (not here)" };
    format!("{}{label}{gone}", short(id))
}

fn children(standing: &Standing, id: &str) -> Result<Vec<Named>, String> {
    let names = standing.names()?;
    let noted = names.notes.iter().filter_map(|child| match standing.note(child) {
        Noted::Whole(Note { kept, grew_from: Some(parent), .. }) if parent == id => Some((kept, child)),
        _ => None,
    });
    let mut found: Vec<(String, &String)> = noted.collect();
    found.sort();
    let heads = ["children"].into_iter().chain(std::iter::repeat(""));
    if found.is_empty() {
        return Ok(vec![("children", "none".into())]);
    }
    Ok(heads.zip(found).map(|(head, (_, child))| (head, called(standing, child))).collect())
}

fn of_save(save: &Kept) -> Result<Vec<Named>, String> {
    let study = &save.study;
    let grid = study.grid();
    let energy = study.total_energy().map_err(|refusal| format!("the energy: refused as {refusal}"))?;
    let [dx, dy, dz] = grid.pitch;
    Ok(vec![
        ("cells", product(grid.cells)),
        ("pitch", format!("{dx:?}, {dy:?}, {dz:?} m")),
        ("dt", format!("{:?} s", grid.dt)),
        ("Courant number", format!("{:.6}", grid.courant_number())),
        ("constants", grid.constants.to_string()),
        ("periodic", named(study.periodic())),
        ("layer works on", named(study.active())),
        ("pole slots", grid.pole_slots.to_string()),
        ("materials", format!("{}, the vacuum among them", study.material_count())),
        ("steps", study.steps().to_string()),
        ("time", format!("{:?} s", study.time())),
        ("energy", format!("{energy:?} J")),
        ("length", counted(save.length, "byte")),
    ])
}
