//! docs/VALIDATION.md and the sections that stand in it.

use crate::report::Section;

/// The text between a section's marks, and where it begins and ends.
fn held<'a>(document: &'a str, name: &str) -> Option<(usize, &'a str)> {
    let mark = format!("<!-- make validate: {name} -->\n");
    let from = document.find(&mark)? + mark.len();
    let length = document[from..].find("<!-- end -->")?;
    Some((from, &document[from..from + length]))
}

/// The document with a section in the place of the one that it has.
pub fn put(document: &str, section: &Section) -> Result<String, String> {
    let (from, old) = held(document, section.name).ok_or_else(|| missing(section))?;
    Ok([&document[..from], "\n", &section.text, &document[from + old.len()..]].concat())
}

/// Where the document's section is not what was computed now: a line for each difference.
pub fn differences(document: &str, section: &Section) -> Vec<String> {
    let Some((_, held)) = held(document, section.name) else { return vec![missing(section)] };
    let lines = |text: &str| -> Vec<String> { text.lines().filter(|line| !line.is_empty()).map(String::from).collect() };
    let (held, computed) = (lines(held), lines(&section.text));
    let mut out = Vec::new();
    if held.len() != computed.len() {
        out.push(format!("{}: the document has {} lines and {} were computed", section.name, held.len(), computed.len()));
    }
    let unlike = held.iter().zip(&computed).filter(|(held, computed)| !same_line(held, computed));
    out.extend(
        unlike.map(|(held, computed)| {
            format!("{}: the document has\n    {held}\n  and computed was\n    {computed}", section.name)
        }),
    );
    out
}

fn missing(section: &Section) -> String {
    format!("{}: the document has no such section", section.name)
}

/// Word by word. Numbers with a decimal point may differ by one in their last place, since the last bits of sines and exponentials are the machine's.
fn same_line(a: &str, b: &str) -> bool {
    let words = |line: &str| -> Vec<String> { line.split_whitespace().map(String::from).collect() };
    let (a, b) = (words(a), words(b));
    a.len() == b.len() && a.iter().zip(&b).all(|(a, b)| a == b || close(a, b))
}

fn close(a: &str, b: &str) -> bool {
    let number = |word: &str| -> Option<(f64, usize)> {
        let word = word.trim_end_matches([',', ';', '.', ':']);
        let places = word.split_once('.')?.1.len();
        Some((word.parse().ok()?, places))
    };
    let (Some((x, places)), Some((y, others))) = (number(a), number(b)) else { return false };
    places == others && (x - y).abs() < 1.5 * 10f64.powi(-(places as i32))
}

#[cfg(test)]
mod tests {
    use super::*;

    fn section(text: &str) -> Section {
        Section { name: "one", text: text.into(), faults: Vec::new() }
    }

    #[test]
    fn what_was_put_is_held() {
        let document = "a\n<!-- make validate: one -->\n<!-- end -->\nb\n";
        let document = put(document, &section("| 0.13 | x |\n\n")).unwrap();
        assert_eq!(document, "a\n<!-- make validate: one -->\n\n| 0.13 | x |\n\n<!-- end -->\nb\n");
        assert!(differences(&document, &section("| 0.13 | x |\n")).is_empty());
        assert!(differences(&document, &section("| 0.14 | x |\n")).is_empty());
        assert_eq!(differences(&document, &section("| 0.15 | x |\n")).len(), 1);
        assert_eq!(differences(&document, &section("| 0.13 | y |\n")).len(), 1);
        assert_eq!(differences(&document, &section("| 0.130 | x |\n")).len(), 1);
        assert_eq!(differences(&document, &section("")).len(), 1);
        assert_eq!(differences("", &section("")).len(), 1);
    }
}
