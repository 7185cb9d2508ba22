//! Prints the sections of docs/VALIDATION.md; ends with 1 where a bound is not met.
//!
//! `validate --check FILE` says besides where the document's tables are not those of this run, `validate --write FILE` puts them in.

use cichowiej::{ENGINE, Refusal};
use std::process::ExitCode;
use std::{env, fs};
use validate::report::Section;
use validate::{accident, cavity, document, errors, layer, same};

type Part = fn() -> Result<Section, Refusal>;

const PARTS: [Part; 8] = [
    errors::slabs,
    errors::time_steps,
    layer::pulses,
    layer::long_waves,
    layer::wave_line,
    cavity::section,
    accident::section,
    same::section,
];

fn main() -> ExitCode {
    let arguments: Vec<String> = env::args().skip(1).collect();
    let arguments: Vec<&str> = arguments.iter().map(String::as_str).collect();
    let faults = match arguments[..] {
        [] => run(|_| Ok(())),
        ["--check", file] => run(|section| checked(file, section)),
        ["--write", file] => run(|section| written(file, section)),
        _ => vec!["usage: validate [--check FILE | --write FILE]".into()],
    };
    for fault in &faults {
        eprintln!("NOT MET: {fault}");
    }
    if faults.is_empty() { ExitCode::SUCCESS } else { ExitCode::FAILURE }
}

/// Every section, printed as soon as it is there. The answer has a line for each thing that is not as it should be.
fn run(then: impl Fn(&Section) -> Result<(), Vec<String>>) -> Vec<String> {
    println!("{ENGINE}\n{}\n", same::told());
    let mut faults = Vec::new();
    for part in PARTS {
        match part() {
            Err(refusal) => faults.push(format!("refused: {refusal}")),
            Ok(mut section) => {
                println!("## {}\n\n{}", section.name, section.text);
                faults.append(&mut section.faults);
                // without the original there is nothing for the document's section about it
                if section.name != "original" || same::FOUND {
                    faults.extend(then(&section).err().into_iter().flatten());
                }
            }
        }
    }
    faults
}

fn read(file: &str) -> Result<String, Vec<String>> {
    fs::read_to_string(file).map_err(|error| vec![format!("{file}: {error}")])
}

fn checked(file: &str, section: &Section) -> Result<(), Vec<String>> {
    let differences = document::differences(&read(file)?, section);
    if differences.is_empty() { Ok(()) } else { Err(differences) }
}

fn written(file: &str, section: &Section) -> Result<(), Vec<String>> {
    let document = document::put(&read(file)?, section).map_err(|error| vec![error])?;
    fs::write(file, document).map_err(|error| vec![format!("{file}: {error}")])
}
