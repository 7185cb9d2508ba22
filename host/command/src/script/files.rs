//! The files that a script names, looked for before its first call.

use super::parse::Lined;
use super::statement::Statement;
use crate::paths::{check_folder, resolved};
use std::collections::BTreeSet;
use std::fs;
use std::path::{Path, PathBuf};

/// What the script reads, with a word for it.
type Inputs = Vec<(PathBuf, &'static str)>;

/// A save can be put into its folder and takes no input's place; what is rewound to is there, or a line before saves it.
pub fn check(script: &Path, statements: &[Lined<Statement>]) -> Result<(), Lined<String>> {
    let inputs = inputs(script, statements);
    let mut saved = BTreeSet::new();
    for (line, statement) in statements {
        let checked = match statement {
            Statement::Save(path) => {
                saved.insert(resolved(path));
                check_save(path, &inputs)
            }
            Statement::Rewind(path) if !saved.contains(&resolved(path)) => check_rewind(path),
            _ => Ok(()),
        };
        checked.map_err(|message| (*line, message))?;
    }
    Ok(())
}

fn inputs(script: &Path, statements: &[Lined<Statement>]) -> Inputs {
    let tables = statements.iter().filter_map(|(_, statement)| match statement {
        Statement::Run { table: Some(path), .. } => Some((resolved(path), "a table that the script reads")),
        _ => None,
    });
    [(resolved(script), "the script that runs")].into_iter().chain(tables).collect()
}

fn check_save(path: &Path, inputs: &Inputs) -> Result<(), String> {
    check_folder(path)?;
    check_no_folder(path)?;
    let target = resolved(path);
    // a device or a pipe is not written over
    let taken = inputs.iter().find(|(input, _)| *input == target && target.is_file());
    taken.map_or(Ok(()), |(_, what)| Err(format!("{}: this is {what}: take another name", path.display())))
}

fn check_rewind(path: &Path) -> Result<(), String> {
    fs::metadata(path).map_err(|e| format!("{}: {e}, and no line before saves it", path.display()))?;
    check_no_folder(path)
}

fn check_no_folder(path: &Path) -> Result<(), String> {
    if path.is_dir() { Err(format!("{}: this is a folder: name a file", path.display())) } else { Ok(()) }
}
