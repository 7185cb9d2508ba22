//! Everything that is kept, gone through.

use crate::standing::list::counted;
use crate::standing::{Noted, Standing, is_digest};
use crate::text::plain;

/// What was found.
pub struct Report {
    pub text: String,
    pub damaged: usize,
}

pub fn verify(standing: &Standing) -> Result<Report, String> {
    let names = standing.names()?;
    // another program may have added a save since the names were read
    let is_here = |id: &&String| names.saves.contains(*id) || standing.save_path(id).exists();
    let (saves, alone): (Vec<&String>, Vec<&String>) = names.saves.union(&names.notes).partition(is_here);
    let found: Vec<Found> = saves.iter().map(|id| found(standing, id)).collect();
    let damaged = found.iter().filter(|found| found.damaged).count() + alone.len();
    let poles = match found.iter().filter(|found| found.unsteppable).count() {
        0 => String::new(),
        some => format!("{some} whole with a pole that cannot be stepped, "),
    };
    let without = names.saves.difference(&names.notes).filter(|id| is_digest(id)).count();
    let of_saves = found.into_iter().flat_map(|found| found.lines);
    let mut lines: Vec<String> = of_saves.chain(alone.iter().map(|id| lost(standing, id))).collect();
    if without > 0 {
        lines.push(format!("{} without a note, to be had by keeping it again", counted(without, "save")));
    }
    if names.leftovers > 0 {
        lines.push(format!("{} of interrupted writes, harmless", counted(names.leftovers, "leftover")));
    }
    let notes = match alone.len() {
        0 => String::new(),
        1 => "1 note without its save, ".into(),
        several => format!("{several} notes without their saves, "),
    };
    lines.push(format!("{}, {notes}{poles}{damaged} damaged", counted(saves.len(), "save")));
    Ok(Report { text: lines.iter().map(|line| format!("{}\n", plain(line))).collect(), damaged })
}

/// Of a note that is alone.
fn lost(standing: &Standing, id: &str) -> String {
    format!("{}: its save is not here", standing.note_path(id).display())
}

/// What there is to say of a save and its note, a line for each.
struct Found {
    lines: Vec<String>,
    damaged: bool,
    /// Whole, and refused for a pole.
    unsteppable: bool,
}

fn found(standing: &Standing, id: &str) -> Found {
    if !is_digest(id) {
        let line = format!("{}: its name is no SHA-256", standing.save_path(id).display());
        return Found { lines: vec![line], damaged: true, unsteppable: false };
    }
    let (numbers, fault) = match standing.kept(id) {
        Ok(kept) => (Some(kept.numbers()), None),
        Err(fault) => (fault.older.as_ref().map(|older| older.numbers), Some(fault)),
    };
    let of_note = match standing.note(id) {
        Noted::Nothing => None,
        Noted::Damaged(message) => Some(message),
        // numbers of a damaged save are nobody's to judge a note by
        Noted::Whole(noted) => numbers
            .and_then(|numbers| noted.disagreement(&numbers))
            .map(|message| format!("{}: {message}", standing.note_path(id).display())),
    };
    let unsteppable = fault.as_ref().is_some_and(|fault| fault.older.is_some());
    let damaged = of_note.is_some() || fault.is_some() && !unsteppable;
    Found { lines: fault.map(String::from).into_iter().chain(of_note).collect(), damaged, unsteppable }
}
