//! What the program prints: sections of Markdown, each with what it found not to be met.

use std::fmt::Display;

/// A section, whose text stands in docs/VALIDATION.md between two marks with its name.
pub struct Section {
    pub name: &'static str,
    pub text: String,
    /// A line for each bound that is not met.
    pub faults: Vec<String>,
}

impl Section {
    pub fn new(name: &'static str) -> Self {
        Self { name, text: String::new(), faults: Vec::new() }
    }

    /// A paragraph.
    pub fn say(&mut self, text: impl Display) {
        self.text += &format!("{text}\n\n");
    }

    pub fn table(&mut self, heads: &[&str], rows: &[Vec<String>]) {
        let line = |cells: Vec<String>| format!("| {} |\n", cells.join(" | "));
        self.text += &line(heads.iter().map(ToString::to_string).collect());
        self.text += &line(vec!["---".into(); heads.len()]);
        for row in rows {
            self.text += &line(row.clone());
        }
        self.text += "\n";
    }

    /// Notes the bound where it is not met. A NaN meets none, since it compares as false.
    pub fn must(&mut self, met: bool, bound: impl Display) {
        if !met {
            self.faults.push(format!("{}: {bound}", self.name));
        }
    }
}

/// A ratio of amplitudes in dB.
pub fn db(ratio: f64) -> f64 {
    20.0 * ratio.log10()
}

/// The larger one by size. A NaN stays, so that a bound sees it.
pub fn largest(so_far: f64, value: f64) -> f64 {
    if so_far.is_nan() || value.abs() <= so_far { so_far } else { value.abs() }
}
