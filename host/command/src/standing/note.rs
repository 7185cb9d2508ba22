//! The note beside a save: what it is called, when it was kept and what it grew from, with the save's sizes.

use crate::document;
use crate::head::trouble::Trouble;
use crate::standing::{date, is_digest};
use cichowiej::Study;
use serde::{Deserialize, Serialize};

#[derive(Debug, Clone, PartialEq, Serialize, Deserialize)]
#[serde(deny_unknown_fields)]
pub struct Note {
    #[serde(skip_serializing_if = "Option::is_none")]
    pub label: Option<String>,
    /// When, as `date` writes it.
    pub kept: String,
    /// The digest of another save.
    #[serde(skip_serializing_if = "Option::is_none")]
    pub grew_from: Option<String>,
    pub cells: [usize; 3],
    pub pole_slots: usize,
    pub materials: usize,
    pub steps: usize,
    /// In s.
    pub time: f64,
    pub bytes: usize,
}

/// What a note says of its save.
#[derive(Debug, Clone, Copy)]
pub struct Numbers {
    cells: [usize; 3],
    pole_slots: usize,
    materials: usize,
    steps: usize,
    time: f64,
    bytes: usize,
}

/// What a person says of a save.
#[derive(Debug, Clone, Default)]
pub struct Words {
    pub label: Option<String>,
    pub grew_from: Option<String>,
}

impl Numbers {
    /// Of a study whose save has so many bytes.
    pub fn of(study: &Study, bytes: usize) -> Self {
        let grid = study.grid();
        Self {
            cells: grid.cells,
            pole_slots: grid.pole_slots,
            materials: study.material_count(),
            steps: study.steps() as usize,
            time: study.time(),
            bytes,
        }
    }

    /// As texts, so that one NaN is the other's equal.
    fn named(&self) -> [(&'static str, String); 6] {
        [
            ("cells", format!("{:?}", self.cells)),
            ("pole_slots", self.pole_slots.to_string()),
            ("materials", self.materials.to_string()),
            ("steps", self.steps.to_string()),
            ("time", format!("{:?}", self.time)),
            ("bytes", self.bytes.to_string()),
        ]
    }
}

impl Note {
    pub fn new(numbers: Numbers, kept: String, words: Words) -> Self {
        let Numbers { cells, pole_slots, materials, steps, time, bytes } = numbers;
        Self { label: words.label, kept, grew_from: words.grew_from, cells, pole_slots, materials, steps, time, bytes }
    }

    pub fn parse(text: &str) -> Result<Self, Trouble> {
        let note: Self = document::parse(text)?;
        if date::seconds(&note.kept).is_none() {
            return Err(Trouble::at("kept", "this is no time as 2026-11-16T11:50:00Z"));
        }
        if note.grew_from.as_deref().is_some_and(|id| !is_digest(id)) {
            return Err(Trouble::at("grew_from", "this is no SHA-256 in 64 hexadecimal digits"));
        }
        Ok(note)
    }

    /// The first number that is not the save's.
    pub fn disagreement(&self, of_save: &Numbers) -> Option<String> {
        let mut pairs = self.numbers().named().into_iter().zip(of_save.named());
        let ((name, noted), (_, found)) = pairs.find(|(noted, found)| noted != found)?;
        Some(format!("{name} is {noted} here and {found} in the save"))
    }

    fn numbers(&self) -> Numbers {
        let Self { cells, pole_slots, materials, steps, time, bytes, .. } = *self;
        Numbers { cells, pole_slots, materials, steps, time, bytes }
    }
}

#[cfg(test)]
mod tests {
    use super::*;
    use cichowiej::{Constants, Grid};

    fn note(label: &str, time: f64) -> Note {
        let grid = Grid { cells: [1, 2, 3], pitch: [1e-3; 3], dt: 1e-12, pole_slots: 0, constants: Constants::Old };
        let study = Study::open(&grid).unwrap();
        let words = Words { label: Some(label.into()), grew_from: Some("ab".repeat(32)) };
        Note { time, ..Note::new(Numbers::of(&study, 5000), date::text(951_782_400), words) }
    }

    #[test]
    fn what_is_written_reads_back() {
        for label in ["wet", "", "\"quoted\" = [x]\n# y", "tab\t, bell\u{7}, '''", "Feuchte 7 %, żółć", "\\", "\r\n"] {
            for time in [0.0, -0.0, 1.9258e-12, 1e300, 0.1, f64::INFINITY] {
                let note = note(label, time);
                let text = toml::to_string(&note).unwrap();
                let again = Note::parse(&text).unwrap();
                assert!(again == note && again.numbers().named() == note.numbers().named(), "{text}");
            }
        }
        let endless = note("", f64::NAN);
        assert_eq!(Note::parse(&toml::to_string(&endless).unwrap()).unwrap().disagreement(&endless.numbers()), None);
    }

    #[test]
    fn faults_are_found_on_their_lines() {
        let good = toml::to_string(&note("wet", 0.5)).unwrap();
        let fault = |old: &str, new: &str| {
            assert_eq!(good.matches(old).count(), 1, "{old} in {good}");
            let text = good.replace(old, new);
            Note::parse(&text).unwrap_err().located("n.toml", &text)
        };
        assert!(fault("2000-02-29", "2001-02-29").starts_with("n.toml:2: kept: "));
        assert!(fault("\"abab", "\"Abab").starts_with("n.toml:3: grew_from: "));
        assert!(fault("steps = 0", "steps = -1").starts_with("n.toml:7: steps: "));
        assert!(fault("steps = 0", "stesp = 0").contains("stesp"));
        assert!(fault("steps = 0", "").contains("steps"));
        assert!(fault("[1, 2, 3]", "[1, 2]").starts_with("n.toml:4: cells"));
        assert!(fault("steps = 0", "steps =").starts_with("n.toml:7: "));
    }
}
