//! From a script's text to its statements.

use super::statement::{Size, Statement, grid, pole, size, statement};
use super::words::Words;
use cichowiej::Refusal;
use std::collections::BTreeSet;

/// With the line that it stands on.
pub type Lined<T> = (usize, T);

/// The statements with their lines, or the first line that is none.
pub fn parse(text: &str) -> Result<Vec<Lined<Statement>>, Lined<String>> {
    // some editors put a mark before the first line
    let text = text.strip_prefix('\u{feff}').unwrap_or(text);
    let mut parser = Parser { statements: Vec::new(), sized: None, names: BTreeSet::new() };
    for (line, text) in (1..).zip(text.lines()) {
        parser.take(line, text).map_err(|message| (line, message))?;
    }
    match parser.sized {
        Some((line, _)) => Err((line, "no pitch stands behind it".into())),
        None => Ok(parser.statements),
    }
}

struct Parser {
    statements: Vec<Lined<Statement>>,
    /// A `size` whose `pitch` is to come.
    sized: Option<Lined<Size>>,
    /// The materials of the study that stands at this line.
    names: BTreeSet<String>,
}

impl Parser {
    fn take(&mut self, line: usize, text: &str) -> Result<(), String> {
        let mut words = Words::of(text)?;
        let Some(kind) = words.next() else { return words.end() };
        match (kind.as_str(), self.sized.take()) {
            ("pitch", Some((size_line, size))) => {
                let grid = grid(size, &mut words)?;
                self.add(line, Statement::Open { grid, size_line })?;
            }
            (_, Some(_)) | ("pitch", None) => return Err("size stands before pitch, and pitch behind size".into()),
            ("size", None) => self.sized = Some((line, size(&mut words)?)),
            ("pole", None) => match self.statements.last_mut() {
                Some((_, Statement::Material { material, pole_lines, .. })) => {
                    material.poles.push(pole(&mut words)?);
                    pole_lines.push(line);
                }
                _ => return Err("a pole stands behind its material".into()),
            },
            (kind, None) => {
                let statement = statement(kind, &mut words)?;
                self.add(line, statement)?;
            }
        }
        words.end()
    }

    fn add(&mut self, line: usize, statement: Statement) -> Result<(), String> {
        statement.check_name(&mut self.names)?;
        self.statements.push((line, statement));
        Ok(())
    }
}

impl Statement {
    /// Whether another study stands behind it, which has none of the names of before.
    pub fn begins_anew(&self) -> bool {
        matches!(self, Statement::Open { .. } | Statement::Rewind(_))
    }

    /// Notes the name of a material; one that no line before has named is a slip.
    fn check_name(&self, names: &mut BTreeSet<String>) -> Result<(), String> {
        match self {
            Statement::Material { name, .. } => {
                names.insert(name.clone());
                Ok(())
            }
            Statement::Box { material, .. } | Statement::Halfspace { material, .. } => {
                let known = names.contains(material) || material == "vacuum" || material.parse::<u32>().is_ok();
                if known { Ok(()) } else { Err(format!("there is no material {material:?}")) }
            }
            _ => {
                if self.begins_anew() {
                    names.clear();
                }
                Ok(())
            }
        }
    }

    /// The line whose words a refusal is about.
    pub fn line_of(&self, refusal: Refusal, line: usize) -> usize {
        match self {
            Statement::Open { size_line, .. } if refusal != Refusal::BadSpacing => *size_line,
            _ => line,
        }
    }
}
