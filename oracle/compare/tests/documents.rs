//! The documents name files, definitions and edits: they are there, and what is there is named. No more is
//! shown of what the documents say about them.

use compare::{files, read, report, top};
use std::collections::{BTreeMap, BTreeSet};
use std::path::Path;

fn documents() -> Vec<(String, String)> {
    let mut all = files("docs", ".md");
    all.push("README.md".to_string());
    let with_text = |name: String| (name.clone(), read(&name));
    all.into_iter().map(with_text).collect()
}

/// The words that look like a path of a source file, or of any file outside the crates.
fn paths(text: &str) -> BTreeSet<&str> {
    let breaks = |c: char| !(c.is_ascii_alphanumeric() || "_-./".contains(c));
    let words = text.split(breaks).map(|word| word.trim_matches('.'));
    let endings = [".antt", ".rt", ".edit"];
    let folders = [
        "bench/",
        "docs/",
        "examples/",
        "host/",
        "include/",
        "oracle/",
    ];
    let outside = |word: &str| folders.iter().any(|f| word.starts_with(f)) && word.contains('.');
    words
        .filter(|word| word.contains('/'))
        .filter(|word| endings.iter().any(|e| word.ends_with(e)) || outside(word))
        .collect()
}

#[test]
fn every_file_that_a_document_names_is_there() {
    let mut count = 0;
    for (name, text) in documents() {
        for path in paths(&text) {
            // "specs/Box.antt" after the crate's heading, in a table, names no crate
            if path.starts_with("specs/")
                || path.starts_with("proofs/")
                || path.starts_with("Inner/")
            {
                continue;
            }
            let below = ["", "crates/"]
                .iter()
                .any(|top_of| top().join(format!("{top_of}{path}")).is_file());
            assert!(below, "{name} names {path}, which is not there");
            count += 1;
        }
    }
    assert!(count > 100, "only {count} paths were found");
    report(&format!("documents: {count} paths of files"));
}

/// The names in backquotes that stand right before a place in a text, as `one`, `two` and `three`.
fn names_before(text: &str) -> Vec<String> {
    let mut rest = text.trim_end();
    let mut out = Vec::new();
    while let Some(open) = rest.strip_suffix('`').and_then(|inner| inner.rfind('`')) {
        out.extend(names(&rest[open..]));
        rest = rest[..open].trim_end();
        rest = rest
            .strip_suffix(',')
            .or_else(|| rest.strip_suffix(" and"))
            .unwrap_or(rest)
            .trim_end();
    }
    out
}

#[test]
fn a_name_with_its_file_is_defined_there() {
    let mut count = 0;
    let mut wrong = Vec::new();
    for (document, text) in documents() {
        for (at, _) in text.match_indices(" (") {
            let word = text[at + 2..]
                .split([')', ',', ';', ' ', ':'])
                .next()
                .unwrap();
            if !word.ends_with(".antt") || !word.contains("/specs/") || word.starts_with("specs/") {
                continue;
            }
            let file = read(&format!("crates/{word}"));
            for name in names_before(&text[..at]) {
                if !defines(&file, &name) {
                    wrong.push(format!("{document}: {name} is not defined in {word}"));
                }
                count += 1;
            }
        }
    }
    assert!(wrong.is_empty(), "{}", wrong.join("\n"));
    assert!(count > 150, "only {count} names were found");
    report(&format!("documents: {count} names with their files"));
}

struct Row {
    of: String,
    file: String,
    names: Vec<String>,
}

/// What stands between backquotes and is a name: no blank, bracket or dot in it.
fn names(cell: &str) -> Vec<String> {
    let spans = cell.split('`').skip(1).step_by(2);
    let plain = |span: &&str| !span.is_empty() && !span.contains([' ', '(', '.', ':', '/']);
    spans.filter(plain).map(str::to_string).collect()
}

/// ARCHITECTURE's table of crates: crate, Rust module, specs file, main definitions.
fn table(text: &str) -> Vec<Row> {
    let mut of = String::new();
    let mut rows = Vec::new();
    for line in text.lines().filter(|line| line.starts_with("| ")) {
        let cells: Vec<&str> = line.split('|').map(str::trim).collect();
        if cells.len() != 6 {
            continue;
        }
        if let Some(first) = names(cells[1]).first() {
            of = first.clone();
        }
        for file in cells[3].split(", ").filter(|file| file.ends_with(".antt")) {
            rows.push(Row {
                of: of.clone(),
                file: file.to_string(),
                names: names(cells[4]),
            });
        }
    }
    rows
}

/// Whether a text defines a name: as a definition, a record, an enumeration or one of its cases.
fn defines(text: &str, name: &str) -> bool {
    let starts = |line: &str| {
        let words: Vec<&str> = line
            .split_whitespace()
            .filter(|w| !["pub", "abbrev", "unfoldable", "record", "data"].contains(w))
            .collect();
        words.first() == Some(&name)
    };
    text.lines().any(starts)
}

#[test]
fn the_table_of_definitions_is_whole() {
    let rows = table(&read("docs/ARCHITECTURE.md"));
    let mut named: BTreeMap<String, usize> = BTreeMap::new();
    for row in &rows {
        let path = format!("crates/{}/specs/{}", row.of, row.file);
        let text = read(&path);
        named.insert(path.clone(), row.names.len());
        // a row of several files names what they hold together
        let alone = rows
            .iter()
            .filter(|other| other.of == row.of && other.names == row.names)
            .count()
            == 1;
        for name in row.names.iter().filter(|_| alone) {
            assert!(
                defines(&text, name),
                "ARCHITECTURE: {name} is not defined in {path}"
            );
        }
    }
    let inner = |path: &&String| {
        path.contains("/Inner/") || path.ends_with("/Lib.antt") || path.ends_with("/Inner.antt")
    };
    let crates = files("crates", ".antt");
    for path in crates
        .iter()
        .filter(|path| path.contains("/specs/"))
        .filter(|path| !inner(path))
    {
        assert!(
            named.contains_key(path),
            "{path} is not in ARCHITECTURE's table"
        );
    }
    report(&format!("documents: {} files of definitions", named.len()));
}

/// A file's lines without imports and blank lines.
fn lines(path: &str) -> usize {
    let counts = |line: &&str| !line.trim().is_empty() && !line.starts_with("use ");
    read(path).lines().filter(counts).count()
}

#[test]
fn the_reading_orders_lengths_are_right() {
    let text = read("docs/ARCHITECTURE.md");
    let mut count = 0;
    for line in text.lines().filter(|line| line.starts_with("| ")) {
        let cells: Vec<&str> = line.split('|').map(str::trim).collect();
        let [_, number, file, length, _, _] = cells[..] else {
            continue;
        };
        // of Letters.antt a part is to be read
        if number.parse::<usize>().is_err() || file.ends_with("/Letters.antt") {
            continue;
        }
        let found = lines(&format!("crates/{file}"));
        assert_eq!(length, found.to_string(), "ARCHITECTURE: lines of {file}");
        count += 1;
    }
    assert!(count > 10, "only {count} files are in the reading order");
}

/// The functions that CONTRACTS' tables name in their first column, or None in a row of another table.
fn functions(line: &str, of_functions: &mut bool) -> Vec<String> {
    let first = line.trim_start_matches('|').split('|').next().unwrap();
    if !first.contains('`') {
        *of_functions = match first.trim() {
            "function" => true,
            cell if cell.starts_with("---") => *of_functions,
            _ => false,
        };
        return Vec::new();
    }
    let spans = first
        .split('`')
        .skip(1)
        .step_by(2)
        .filter(|_| *of_functions);
    let names = spans.map(|span| span.rsplit("::").next().unwrap().to_string());
    // constants have capitals in their names, and functions none
    names
        .filter(|name| name != "requires" && !name.contains(char::is_uppercase))
        .collect()
}

#[test]
fn every_function_with_a_contract_is_there() {
    let code: String = files("crates", ".rt")
        .iter()
        .map(|path| read(path))
        .collect();
    let modules: BTreeSet<String> = files("crates", ".rt")
        .iter()
        .map(|path| {
            Path::new(path)
                .file_stem()
                .unwrap()
                .to_str()
                .unwrap()
                .to_string()
        })
        .collect();
    let mut of_functions = false;
    let mut count = 0;
    for line in read("docs/CONTRACTS.md")
        .lines()
        .filter(|line| line.starts_with('|'))
    {
        for name in functions(line, &mut of_functions) {
            let there = [format!("fn {name}("), format!("fn {name}<")]
                .iter()
                .any(|start| code.contains(start));
            assert!(
                there || modules.contains(&name),
                "CONTRACTS names the function {name}, which is not there"
            );
            count += 1;
        }
    }
    assert!(count > 100, "only {count} functions were found");
    report(&format!("documents: {count} functions with a contract"));
}

#[test]
fn every_edit_is_named() {
    let said: String = ["docs/CONTRACTS.md", "docs/CONFORMANCE.md"]
        .iter()
        .map(|name| read(name))
        .collect();
    let words: BTreeSet<&str> = said
        .split(|c: char| !(c.is_ascii_alphanumeric() || c == '_'))
        .collect();
    let edits = files("crates", ".edit");
    for edit in &edits {
        let name = Path::new(edit).file_stem().unwrap().to_str().unwrap();
        assert!(
            words.contains(name),
            "{edit} is in neither CONTRACTS nor CONFORMANCE"
        );
    }
    // the last column of CONTRACTS' tables names edits alone
    let there: BTreeSet<&str> = edits
        .iter()
        .map(|e| Path::new(e).file_stem().unwrap().to_str().unwrap())
        .collect();
    let mut heading = "";
    for line in read("docs/CONTRACTS.md")
        .lines()
        .filter(|line| line.starts_with('|'))
        .map(str::to_string)
        .collect::<Vec<_>>()
        .iter()
    {
        let last = line
            .trim_end_matches('|')
            .rsplit('|')
            .next()
            .unwrap()
            .trim();
        if last == "edit" || last.starts_with("act of") || last.starts_with("what it leaves") {
            heading = if last == "edit" { "edit" } else { "" };
        } else if heading == "edit" && !last.starts_with("---") && last != "-" {
            for name in last.split(", ") {
                let name = name.split(" of ").next().unwrap();
                assert!(
                    there.contains(name),
                    "CONTRACTS names the edit {name}, which is not there"
                );
            }
        }
    }
    report(&format!("documents: {} edits", edits.len()));
}
