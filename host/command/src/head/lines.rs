//! On which line of a TOML text a key stands. The text may be one that the reader of TOML has refused: nothing is judged here, and any text comes to its end.

use crate::document::DEEPEST;
use std::collections::BTreeMap;

/// The lines of a text's keys, these written as in `sheet.moisture[1].percent`.
#[derive(Debug, Clone, Copy)]
pub struct Lines<'a> {
    text: &'a str,
}

impl<'a> Lines<'a> {
    pub fn of(text: &'a str) -> Self {
        Self { text }
    }

    /// The line of a key, or of the nearest part around it that has one.
    pub fn line(&self, key: &str) -> usize {
        self.search(key).line
    }

    /// The line on which a key stands for the second time.
    pub fn again(&self, key: &str) -> Option<usize> {
        self.search(key).again
    }

    fn search<'k>(&self, key: &'k str) -> Search<'k> {
        let found = Search { key, length: 0, line: 1, again: None };
        let mut scanner = Scanner { rest: self.text, line: 1, depth: 0, found };
        scanner.document();
        scanner.found
    }
}

/// A key that is looked for: how much of it has been found, the first line of that, and where the whole of it stands once more.
struct Search<'k> {
    key: &'k str,
    length: usize,
    line: usize,
    again: Option<usize>,
}

impl Search<'_> {
    /// A key that stands on a line.
    fn put(&mut self, key: &str, line: usize) {
        if key == self.key && self.length == key.len() && self.line != line {
            self.again.get_or_insert(line);
        }
        let length = shared(self.key, key);
        if length > self.length {
            (self.length, self.line) = (length, line);
        }
    }
}

/// How much two keys share, in whole parts.
fn shared(a: &str, b: &str) -> usize {
    let same = a.bytes().zip(b.bytes()).take_while(|(a, b)| a == b).count();
    let ends = |key: &str, at: usize| matches!(key.as_bytes().get(at), None | Some(b'.' | b'['));
    (0..=same).rev().find(|at| ends(a, *at) && ends(b, *at)).unwrap_or(0)
}

/// A key with more letters is cut: no table's in a head comes near, and a text of such keys would be copied over and over.
const LONGEST_KEY: usize = 512;

fn joined(table: &str, key: &str) -> String {
    let room = LONGEST_KEY.saturating_sub(table.len());
    let dot = if table.is_empty() { "" } else { "." };
    table.chars().chain(dot.chars().chain(key.chars()).take(room)).collect()
}

/// How many tables each array of tables has so far.
type Counts = BTreeMap<String, usize>;

/// A header's key, its outer arrays of tables with their last index.
fn placed(key: &str, counts: &Counts) -> String {
    key.split('.').fold(String::new(), |path, part| match counts.get(&path) {
        Some(count) => format!("{path}[{}].{part}", count - 1),
        None => joined(&path, part),
    })
}

struct Scanner<'a, 'k> {
    rest: &'a str,
    line: usize,
    /// In how many brackets.
    depth: usize,
    found: Search<'k>,
}

impl Scanner<'_, '_> {
    fn take(&mut self, count: usize) -> &str {
        let (taken, rest) = self.rest.split_at(count.min(self.rest.len()));
        self.line += taken.matches('\n').count();
        self.rest = rest;
        taken
    }

    /// Up to one of these characters, or the end.
    fn until(&mut self, ends: &[char]) -> &str {
        let end = self.rest.find(ends).unwrap_or(self.rest.len());
        self.take(end)
    }

    fn takes(&mut self, word: &str) -> bool {
        let found = self.rest.starts_with(word);
        if found {
            self.take(word.len());
        }
        found
    }

    /// Blanks, line ends, comments.
    fn space(&mut self) {
        loop {
            let blank = self.rest.len() - self.rest.trim_start().len();
            self.take(blank);
            if !self.rest.starts_with('#') {
                return;
            }
            self.until(&['\n']);
        }
    }

    fn document(&mut self) {
        let mut table = String::new();
        let mut counts = Counts::new();
        loop {
            self.space();
            let line = self.line;
            if self.rest.is_empty() {
                return;
            } else if self.takes("[[") {
                let array = placed(&self.key(""), &counts);
                self.takes("]]");
                let count = counts.entry(array.clone()).or_insert(0);
                table = format!("{array}[{count}]");
                *count += 1;
            } else if self.takes("[") {
                table = placed(&self.key(""), &counts);
                self.takes("]");
            } else {
                self.pair(&table);
                continue;
            }
            self.found.put(&table, line);
        }
    }

    /// A key with its dots, under a table.
    fn key(&mut self, table: &str) -> String {
        let mut path = table.to_string();
        loop {
            self.space();
            let part = match self.rest.chars().next() {
                Some(quote @ ('"' | '\'')) => {
                    self.take(1);
                    let name = self.until(&[quote]).to_string();
                    self.take(1);
                    name
                }
                _ => self.until(&['.', '=', ']', ' ', '\t', '\n']).to_string(),
            };
            path = joined(&path, &part);
            self.space();
            if !self.takes(".") {
                return path;
            }
        }
    }

    /// A key, and what it stands for.
    fn pair(&mut self, table: &str) {
        let line = self.line;
        let key = self.key(table);
        self.found.put(&key, line);
        if !self.takes("=") {
            self.skip();
        }
        self.value(&key);
    }

    fn value(&mut self, key: &str) {
        self.space();
        for quote in ["\"\"\"", "'''", "\"", "'"] {
            if self.takes(quote) {
                return self.string(quote);
            }
        }
        if self.takes("[") {
            self.inside(|scanner| scanner.array(key));
        } else if self.takes("{") {
            self.inside(|scanner| scanner.inline_table(key));
        } else if self.until(&[',', ']', '}', '#', '\n']).is_empty() {
            self.skip();
        }
    }

    /// What stands in brackets. Where there are too many the reader of TOML has refused the text, and they are passed over.
    fn inside(&mut self, read: impl FnOnce(&mut Self)) {
        if self.depth < DEEPEST {
            self.depth += 1;
            read(self);
            self.depth -= 1;
        }
    }

    /// A character where nothing is understood, so that any text comes to its end.
    fn skip(&mut self) {
        self.take(self.rest.chars().next().map_or(0, char::len_utf8));
    }

    fn string(&mut self, quote: &str) {
        while !self.rest.is_empty() && !self.takes(quote) {
            let escaped = quote.starts_with('"') && self.rest.starts_with('\\');
            let count = self.rest.chars().take(1 + usize::from(escaped)).map(char::len_utf8).sum();
            self.take(count);
        }
    }

    fn array(&mut self, key: &str) {
        for index in 0.. {
            self.space();
            if self.takes("]") || self.rest.is_empty() {
                return;
            }
            let element = format!("{key}[{index}]");
            self.found.put(&element, self.line);
            self.value(&element);
            self.space();
            self.takes(",");
        }
    }

    fn inline_table(&mut self, key: &str) {
        loop {
            self.space();
            if self.takes("}") || self.rest.is_empty() {
                return;
            }
            self.pair(key);
            self.space();
            self.takes(",");
        }
    }
}

#[cfg(test)]
mod tests {
    use super::Lines;

    const TEXT: &str = r##"# a head
title = """two
lines # no comment"""
[grid]
cells = [1,
  2, # "a comment" [
  3]
"odd key" = { x = '"', y.z = 2 }

[[box]]
a = 1
[box.cells]
z = 1
[[box]]
a = "a \" b"
poles = [
  { debye = 1 },
  { lorentz = { x = 1 } },
]
[[box.walls]]
[[box.walls]]
thick = 1
"##;

    #[test]
    fn keys_stand_on_their_lines() {
        let lines = Lines::of(TEXT);
        let wanted = [
            ("title", 2),
            ("grid", 4),
            ("grid.cells", 5),
            ("grid.cells[2]", 7),
            ("grid.odd key", 8),
            ("grid.odd key.y.z", 8),
            ("box", 10),
            ("box[0].a", 11),
            ("box[0].cells.z", 13),
            ("box[1]", 14),
            ("box[1].a", 15),
            ("box[1].poles[1].lorentz.x", 18),
            ("box[1].walls[1].thick", 22),
        ];
        for (key, line) in wanted {
            assert_eq!(lines.line(key), line, "{key}");
        }
    }

    #[test]
    fn a_key_that_is_not_there_has_the_line_of_what_is_around_it() {
        let lines = Lines::of(TEXT);
        assert_eq!(lines.line("grid.dt"), 4);
        assert_eq!(lines.line("box[1].poles[0].debye.tau"), 17);
        assert_eq!(lines.line("wave"), 1);
    }

    #[test]
    fn a_key_that_stands_twice() {
        let lines = Lines::of("a = 1\n[b]\nc = 1\nd = 2\nc = 3\n[b]\n");
        assert_eq!((lines.again("b.c"), lines.again("b"), lines.again("a")), (Some(5), Some(6), None));
    }

    /// Any text comes to an end.
    #[test]
    fn no_text_holds_it_up() {
        for end in 0..TEXT.len() {
            Lines::of(&TEXT[..end]).line("box[1].a");
            Lines::of(&TEXT[end..]).line("box[1].a");
        }
        for text in ["]", "}", "=", ".", "a", "'", "[[", "a = {", "a = [", "a = [}", "a = {]", "\u{b5} = \\"] {
            Lines::of(text).line("a");
        }
    }
    /// Also where it takes for brackets what the reader of TOML takes for a string.
    #[test]
    fn no_text_is_too_deep_for_it() {
        let many = 200_000;
        for (open, close) in [("[", "]"), ("{a=", "}"), ("{a.a=[", "]}"), (".a", ""), ("[[", "]]"), ("\"a\".", "")] {
            for begin in ["", "a = ", "\"\\\" = "] {
                let text = format!("{begin}{}1{}\nb = 1\n", open.repeat(many), close.repeat(many));
                Lines::of(&text).line("b.a.a");
                Lines::of(&text[..text.len() / 3]).again("b");
            }
        }
        let long = format!("\"{}\" = [{}]\n", ".".repeat(many), "1,".repeat(many));
        assert_eq!(Lines::of(&long).line(&long[1..=many]), 1);
    }
}
