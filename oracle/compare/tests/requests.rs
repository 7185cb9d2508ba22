//! docs/REQUESTS.md goes through document 02 sentence by sentence, in its own words; each request that has landed
//! has its rows there and a note in docs/changes, and the others are said to be open.

use compare::{files, read, report};
use std::collections::BTreeSet;
use std::fs;
use std::path::Path;

/// The headings of the second level, each with what stands below it.
fn sections(text: &str) -> Vec<(&str, &str)> {
    let parts = text.split("\n## ").skip(1);
    parts
        .map(|part| part.split_once('\n').unwrap_or((part, "")))
        .collect()
}

/// The request that a heading names, as S-6.
fn request(heading: &str) -> Option<&str> {
    let first = heading.split(' ').next()?;
    let number = first.strip_prefix("S-")?;
    number.parse::<u32>().is_ok().then_some(first)
}

/// The left cells of a section's table, from its third line on.
fn quoted(section: &str) -> String {
    let rows = section.lines().filter(|line| line.starts_with('|'));
    let left = rows
        .skip(2)
        .map(|row| row.split('|').nth(1).unwrap().trim());
    left.collect::<Vec<_>>().join(" ")
}

#[test]
fn a_request_has_rows_and_a_note_or_is_open() {
    let text = read("docs/REQUESTS.md");
    let sections = sections(&text);
    let with_rows: BTreeSet<String> = sections
        .iter()
        .filter_map(|(heading, _)| request(heading).map(str::to_string))
        .collect();
    let note = |path: String| path["docs/changes/".len()..path.len() - ".md".len()].to_string();
    let notes: BTreeSet<String> = files("docs/changes", ".md").into_iter().map(note).collect();
    assert_eq!(with_rows, notes, "rows in REQUESTS, and notes");
    let (_, open) = sections.last().unwrap();
    let open: BTreeSet<String> = open
        .split(|c: char| !(c.is_ascii_alphanumeric() || c == '-'))
        .filter_map(|word| request(word).map(str::to_string))
        .collect();
    let all: BTreeSet<String> = (1..=13).map(|n| format!("S-{n}")).collect();
    assert!(open.is_disjoint(&notes), "landed, and said to be open");
    assert_eq!(&open | &notes, all, "every request");
}

/// What document 02 asks of a landing's note.
#[test]
fn a_note_says_what_moved_what_stayed_and_the_times() {
    for path in files("docs/changes", ".md") {
        let text = read(&path);
        let headings: Vec<&str> = sections(&text)
            .iter()
            .map(|(heading, _)| *heading)
            .collect();
        let wanted = ["Moved", "Stayed", "The check's time"];
        assert_eq!(headings[..3], wanted, "{path}");
    }
}

/// Document 02's paragraphs by what stands in bold before them; the first has nothing.
fn paragraphs(document: &str) -> Vec<(String, String)> {
    let lines = document.lines().filter(|line| !line.is_empty());
    let paragraph = |line: &str| match line.strip_prefix("**").and_then(|l| l.split_once(".** ")) {
        Some((title, text)) => (title.to_string(), text.to_string()),
        None => ("Head".to_string(), line.to_string()),
    };
    lines.skip(1).map(paragraph).collect()
}

#[test]
fn the_sentences_are_the_documents() {
    let original = Path::new(env!("ORIGINAL"));
    let papers = original.ancestors().nth(4).unwrap();
    let Ok(document) = fs::read_to_string(papers.join("02-change-requests.md")) else {
        report("requests: NOT COMPARED with document 02, which is not there");
        return;
    };
    let paragraphs = paragraphs(&document);
    assert_eq!(paragraphs.len(), 14);
    let text = read("docs/REQUESTS.md");
    let sections = sections(&text);
    for (heading, section) in &sections[..sections.len() - 1] {
        let (_, words) = paragraphs
            .iter()
            .find(|(title, _)| title == heading)
            .unwrap_or_else(|| panic!("{heading} is no request of document 02"));
        assert_eq!(&quoted(section), words, "{heading}");
    }
    report(&format!(
        "requests: the sentences of {} paragraphs are document 02's",
        sections.len() - 1
    ));
}
