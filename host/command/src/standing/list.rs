//! All that is kept, as a tree.

use crate::standing::fault::has_bad_pole;
use crate::standing::records::Shape;
use crate::standing::tree::{Line, draw};
use crate::standing::{Noted, Standing, is_digest, short};
use crate::text::{open_file, plain};

pub fn list(standing: &Standing) -> Result<String, String> {
    let names = standing.names()?;
    let ids = names.saves.union(&names.notes).filter(|id| is_digest(id));
    let lines: Vec<Line> = ids.map(|id| line(standing, id)).collect();
    if lines.is_empty() { Ok(format!("no saves in {}\n", standing.folder())) } else { Ok(draw(lines)) }
}

fn line(standing: &Standing, id: &str) -> Line {
    let noted = standing.note(id);
    let note = noted.whole();
    let sizes = note.map(|note| (note.cells, note.steps)).or_else(|| sizes(standing, id));
    let sizes = sizes.map_or("sizes unknown".into(), |(cells, steps)| format!("{}  {}", product(cells), counted(steps, "step")));
    let kept = note.map(|note| note.kept.clone());
    let label = match &noted {
        Noted::Whole(note) => plain(note.label.as_deref().unwrap_or("")),
        Noted::Nothing => "(no note)".into(),
        Noted::Damaged(message) => format!("(note damaged: {})", plain(message)),
    };
    let doubt = if standing.save_path(id).exists() { unsteppable(standing, id) } else { Some("its save is not here".into()) };
    let doubt = doubt.map_or(String::new(), |doubt| format!("({doubt})"));
    let parts = [short(id), kept.as_deref().unwrap_or("at an unknown time"), &sizes, &label, &doubt];
    let text = parts.into_iter().filter(|part| !part.is_empty()).collect::<Vec<_>>().join("  ");
    Line { id: id.into(), kept, grew_from: note.and_then(|note| note.grew_from.clone()), text }
}

/// Cells and steps from the save's first record, which is all that is read of it.
fn sizes(standing: &Standing, id: &str) -> Option<([usize; 3], usize)> {
    let shape = Shape::of_save(open_file(&standing.save_path(id)).ok()?)?;
    Some((shape.cells, shape.steps))
}

/// Of a whole save that the engine refuses for its poles. All of it is judged only where its beginning shows such a pole: else a list would take as long as `verify`.
fn unsteppable(standing: &Standing, id: &str) -> Option<String> {
    let save = open_file(&standing.save_path(id)).ok()?;
    let fault = if has_bad_pole(save) { standing.kept(id).err() } else { None };
    Some(fault?.older?.brief)
}

/// As 1x1x90.
pub fn product(cells: [usize; 3]) -> String {
    cells.map(|n| n.to_string()).join("x")
}

/// As 1 step, 2 steps.
pub fn counted(number: usize, name: &str) -> String {
    let ending = if number == 1 { "" } else { "s" };
    format!("{number} {name}{ending}")
}
