//! The header with its numbers changed, one at a time, and with each two of a list in each other's
//! place. A program that still passes its checks with one of these does not hold the header to the
//! engine.
//!
//! To compile anew for each would take minutes. So every number becomes a question to the program's
//! environment, asked as it runs; numbers that C wants while it compiles, the lengths of arrays, are
//! compiled anew.

use crate::program::{compiled, made, source};
use compare::{report, top};
use std::fs;
use std::ops::Range;
use std::path::{Path, PathBuf};
use std::process::{Command, Stdio};
use std::thread;

/// What holds no number of the header's own is left out.
const THEMES: [&str; 19] = [
    "bytes",
    "constants",
    "record",
    "lengths",
    "refusals",
    "materials",
    "poles",
    "bad_poles",
    "parts",
    "tables",
    "regions",
    "walls",
    "limits",
    "precedence",
    "effects",
    "steps",
    "saves",
    "pointers",
    "wrappers",
];

/// C wants these while it compiles.
const ARRAYS: [&str; 4] = [
    "CICHOWIEJ_BLOCK_LENGTH",
    "CICHOWIEJ_MATERIAL_LENGTH",
    "CICHOWIEJ_COEFFS_LENGTH",
    "CICHOWIEJ_MAX_POLE_SLOTS",
];

/// Answers the number, or what the environment says in its place: a number of this list, a value, and
/// the same once more.
const ASKED: &str = r#"
#include <stdio.h>
#include <stdlib.h>
static long long asked(int place, long long number)
{
    static int read, places[2] = {-1, -1};
    static long long values[2];
    if (!read) {
        const char *said = getenv("CHECK_CHANGED");
        if (said != NULL)
            sscanf(said, "%d %lld %d %lld", &places[0], &values[0], &places[1], &values[1]);
        read = 1;
    }
    return place == places[0] ? values[0] : place == places[1] ? values[1] : number;
}
"#;

/// A whole number in the header's code.
struct Number {
    at: Range<usize>,
    value: i64,
    /// What it is defined as, and which list of definitions it belongs to.
    defined: Option<(String, usize)>,
}

impl Number {
    fn name(&self) -> &str {
        self.defined.as_ref().map_or("", |(name, _)| name)
    }

    fn of_an_array(&self) -> bool {
        ARRAYS.contains(&self.name())
    }
}

/// The code alone: comments become blanks, and so do directives but for definitions.
fn code(header: &str) -> String {
    let mut code = String::new();
    let mut rest = header;
    while let Some(start) = rest.find("/*") {
        let end = rest.find("*/").unwrap() + 2;
        code += &rest[..start];
        code.extend(
            rest[start..end]
                .chars()
                .map(|c| if c == '\n' { c } else { ' ' }),
        );
        rest = &rest[end..];
    }
    code += rest;
    let directive = |line: &str| line.starts_with('#') && !line.starts_with("#define");
    let lines = code
        .split_inclusive('\n')
        .map(|line| match directive(line) {
            true => " ".repeat(line.len() - 1) + "\n",
            false => line.to_string(),
        });
    lines.collect()
}

fn of_word(c: char) -> bool {
    c.is_ascii_alphanumeric() || c == '_' || c == '.'
}

/// The whole numbers of a line: words that begin with a digit and have no point.
fn of_line(line: &str, start: usize) -> Vec<(Range<usize>, i64)> {
    let mut found = Vec::new();
    let mut at = 0;
    while at < line.len() {
        let long = line[at..].find(|c| !of_word(c)).unwrap_or(line.len() - at);
        let word = &line[at..at + long];
        if let Ok(value) = word.trim_end_matches('u').parse() {
            found.push((start + at..start + at + long, value));
        }
        at += long.max(1);
    }
    found
}

/// Every number, in the header's order. A line without a definition ends a list of them.
fn numbers(header: &str) -> Vec<Number> {
    let (mut numbers, mut start, mut list) = (Vec::new(), 0, 0);
    for line in code(header).split_inclusive('\n') {
        let name = line.strip_prefix("#define ");
        let name = name.and_then(|rest| rest.split_whitespace().next());
        list += usize::from(name.is_none());
        for (at, value) in of_line(line, start) {
            let defined = name.map(|n| (n.to_string(), list));
            numbers.push(Number { at, value, defined });
        }
        start += line.len();
    }
    numbers
}

/// The header with each of these numbers as another text.
fn rewritten(header: &str, numbers: &[Number], text: impl Fn(usize, &Number) -> String) -> String {
    let (mut out, mut done) = (String::new(), 0);
    for (place, number) in numbers.iter().enumerate() {
        out += &header[done..number.at.start];
        out += &text(place, number);
        done = number.at.end;
    }
    out + &header[done..]
}

/// The checks as one unit with this text as the header.
fn program(text: &str, name: &str) -> Option<PathBuf> {
    let folder = made(name);
    fs::create_dir_all(&folder).unwrap();
    fs::write(folder.join("cichowiej.h"), text).unwrap();
    let to = folder.join("checks");
    let output = compiled("gcc", &["-std=c99", "-w"], &folder, &[source("all.c")], &to);
    output.status.success().then_some(to)
}

fn passes(program: &Path, changed: &str) -> bool {
    let mut command = Command::new(program);
    command.args(THEMES).env("CHECK_STOP", "");
    command.env("CHECK_CHANGED", changed).stdout(Stdio::null());
    command.status().unwrap().success()
}

/// What is put where: for the environment, and for a reader.
struct Change {
    said: String,
    means: String,
}

fn changes(numbers: &[Number]) -> Vec<Change> {
    let mut all = Vec::new();
    let asked = numbers.iter().enumerate().filter(|(_, n)| !n.of_an_array());
    for (place, number) in asked.clone() {
        let below = (number.defined.is_some() && number.value > 0).then_some(number.value - 1);
        for value in [Some(number.value + 1), below].into_iter().flatten() {
            let (at, name, was) = (number.at.start, number.name(), number.value);
            let said = format!("{place} {value}");
            let means = format!("{name} {was} as {value}, at byte {at}");
            all.push(Change { said, means });
        }
        let rest = asked.clone().skip_while(|(other, _)| *other <= place);
        for (other, two) in rest.take_while(|(_, two)| same_list(number, two)) {
            let (a, b) = (number.value, two.value);
            if a != b {
                let said = format!("{place} {b} {other} {a}");
                let means = format!("{} and {} in each other's place", number.name(), two.name());
                all.push(Change { said, means });
            }
        }
    }
    all
}

fn same_list(a: &Number, b: &Number) -> bool {
    match (&a.defined, &b.defined) {
        (Some((_, x)), Some((_, y))) => x == y,
        _ => false,
    }
}

/// What passes with a changed number, asked two at a time.
fn unnoticed(program: &Path, changes: &[Change]) -> Vec<String> {
    let half = changes.len().div_ceil(2);
    let part = |part: &[Change]| -> Vec<String> {
        let passing = part.iter().filter(|c| passes(program, &c.said));
        passing.map(|c| c.means.clone()).collect()
    };
    thread::scope(|scope| {
        let threads: Vec<_> = changes
            .chunks(half)
            .map(|c| scope.spawn(move || part(c)))
            .collect();
        threads
            .into_iter()
            .flat_map(|t| t.join().unwrap())
            .collect()
    })
}

/// The lengths of arrays, each one more.
fn unnoticed_lengths(header: &str, numbers: &[Number]) -> Vec<String> {
    let arrays = numbers.iter().enumerate().filter(|(_, n)| n.of_an_array());
    let longer = arrays.filter(|(place, _)| {
        let text = rewritten(header, numbers, |at, number| {
            (number.value + i64::from(at == *place)).to_string()
        });
        program(&text, "longer").is_some_and(|p| passes(&p, ""))
    });
    longer.map(|(_, n)| n.name().to_string()).collect()
}

#[test]
fn every_number_is_held_to_the_engine() {
    let header = fs::read_to_string(top().join("include/cichowiej.h")).unwrap();
    let numbers = numbers(&header);
    let asking = rewritten(&header, &numbers, |place, number| {
        let value = number.value;
        match number.of_an_array() {
            true => value.to_string(),
            false => format!("asked({place}, {value})"),
        }
    });
    let program = program(&format!("{ASKED}{asking}"), "asking").expect("gcc compiles the checks");
    assert!(
        passes(&program, ""),
        "the checks fail with the header as it is"
    );

    let changes = changes(&numbers);
    let mut unnoticed = unnoticed(&program, &changes);
    unnoticed.extend(unnoticed_lengths(&header, &numbers));
    assert!(unnoticed.is_empty(), "not noticed: {unnoticed:#?}");
    let defined = numbers.iter().filter(|n| n.defined.is_some()).count();
    assert!(defined > 90 && numbers.len() > defined);
    report(&format!(
        "header: {} numbers, {defined} of them defined; {} changes, each noticed",
        numbers.len(),
        changes.len() + ARRAYS.len()
    ));
}
