//! A Rattle file as words, functions and calls. Comments, ghost lines and contracts are left out: no code is made
//! of them.

use std::ops::Range;

#[derive(Clone)]
pub struct Word {
    pub text: String,
    pub line: usize,
}

impl Word {
    pub fn is(&self, text: &str) -> bool {
        self.text == text
    }

    pub fn is_name(&self) -> bool {
        let first = |c: char| c.is_ascii_alphabetic() || c == '_';
        self.text.starts_with(first) && !self.text.contains(['"', '\''])
    }

    /// A name that a bracket behind it calls or indexes, and not a word of the language.
    pub fn is_value_name(&self) -> bool {
        const WORDS: [&str; 10] = [
            "break", "else", "if", "in", "let", "loop", "match", "mut", "return", "while",
        ];
        self.is_name() && !WORDS.contains(&self.text.as_str())
    }
}

pub struct Parameter {
    pub name: String,
    pub of: String,
}

pub struct Function {
    pub name: String,
    pub line: usize,
    pub takes: Vec<Parameter>,
    /// The answer's type, empty where there is none.
    pub gives: String,
    pub body: Vec<Word>,
}

impl Function {
    /// The names of the parameters of a type.
    pub fn lent(&self, of: &str) -> Vec<&str> {
        let fits = self.takes.iter().filter(|p| p.of == of);
        fits.map(|p| p.name.as_str()).collect()
    }

    pub fn is_method(&self) -> bool {
        self.takes.first().is_some_and(|p| p.name == "self")
    }
}

pub struct File {
    pub code: Vec<Word>,
    pub uses: Vec<Vec<String>>,
    pub functions: Vec<Function>,
    /// What stands outside the functions: constants, types, modules.
    pub items: Vec<Word>,
}

pub fn file(text: &str) -> File {
    let code = code(&words(text));
    let (mut uses, mut functions, mut items) = (vec![], vec![], vec![]);
    let mut at = 0;
    while at < code.len() {
        let (start, word) = (at, code[at].text.as_str());
        let body = if word == "fn" { body(&code, at) } else { None };
        at = match (word, body) {
            ("fn", Some(open)) => closing(&code, open) + 1,
            ("use", _) => find(&code, at, ";") + 1,
            _ => at + 1,
        };
        match (word, body) {
            ("fn", Some(_)) => functions.push(function(&code[start..at])),
            ("use", _) => uses.extend(used(&code[start + 1..at - 1])),
            _ => items.push(code[start].clone()),
        }
    }
    File {
        code,
        uses,
        functions,
        items,
    }
}

/// The words without ghost lines and contracts.
fn code(words: &[Word]) -> Vec<Word> {
    let mut out = Vec::new();
    let mut at = 0;
    while at < words.len() {
        at = match words[at].text.as_str() {
            "ghost" => ghost(words, at),
            "requires" | "ensures" => closing(words, find(words, at, "{")) + 1,
            _ => {
                out.push(words[at].clone());
                at + 1
            }
        };
    }
    out
}

/// The place after a ghost line or a ghost field: behind its `;`, or, of a field, behind its braces.
fn ghost(words: &[Word], at: usize) -> usize {
    let behind = words[at..]
        .iter()
        .position(|word| word.is(";") || word.is("{"));
    let first = at + behind.expect("a ghost line ends");
    match words[first].is("{") {
        false => first + 1,
        true => {
            let end = closing(words, first) + 1;
            end + usize::from(words.get(end).is_some_and(|word| word.is(";")))
        }
    }
}

/// The paths of a `use` line: `a::b`, or `a::{b, c}`, which is `a::b` and `a::c`.
fn used(words: &[Word]) -> Vec<Vec<String>> {
    let Some(open) = words.iter().position(|word| word.is("{")) else {
        return vec![path(words)];
    };
    let alone = closing(words, open) == words.len() - 1 && open > 1 && words[open - 1].is("::");
    let parts = parts(words, open + 1..words.len() - 1);
    let with_self = parts.iter().any(|part| words[part.start].is("self"));
    assert!(
        alone && !with_self,
        "line {}: a form of `use` to teach this test",
        words[0].line
    );
    let lead = path(&words[..open - 1]);
    let full = |part: Range<usize>| [lead.clone(), path(&words[part])].concat();
    parts.into_iter().map(full).collect()
}

/// The names along a path.
fn path(words: &[Word]) -> Vec<String> {
    let (names, between): (Vec<_>, Vec<_>) = words.iter().partition(|word| word.is_name());
    let plain = between.iter().all(|word| word.is("::")) && words.len() == 2 * names.len() - 1;
    assert!(
        plain,
        "line {}: a form of `use` to teach this test",
        words[0].line
    );
    names.into_iter().map(|word| word.text.clone()).collect()
}

/// Where a function's body begins. One that a trait only declares has none, and stands among the items.
fn body(words: &[Word], from: usize) -> Option<usize> {
    let mut at = closing(words, find(words, from, "(")) + 1;
    while !words[at].is("{") && !words[at].is(";") {
        at = match words[at].text.as_str() {
            "[" => closing(words, at) + 1,
            _ => at + 1,
        };
    }
    words[at].is("{").then_some(at)
}

fn function(words: &[Word]) -> Function {
    let open = find(words, 0, "(");
    let close = closing(words, open);
    let body = find(words, close, "{");
    let takes = parts(words, open + 1..close);
    Function {
        name: words[1].text.clone(),
        line: words[0].line,
        takes: takes
            .into_iter()
            .map(|part| parameter(&words[part]))
            .collect(),
        gives: type_of(&words[close + 1..body]).replace("->", ""),
        body: words[body + 1..words.len() - 1].to_vec(),
    }
}

fn parameter(words: &[Word]) -> Parameter {
    let colon = words.iter().position(|word| word.is(":"));
    let (name, of) = words.split_at(colon.unwrap_or(words.len()));
    Parameter {
        name: name.last().unwrap().text.clone(),
        of: type_of(of).replace(':', ""),
    }
}

/// A type's text without lifetimes.
fn type_of(words: &[Word]) -> String {
    let mut out = String::new();
    let mut words = words.iter();
    while let Some(word) = words.next() {
        if word.is("'") {
            words.next();
        } else {
            out += if word.is("mut") { "mut " } else { &word.text };
        }
    }
    out
}

fn words(text: &str) -> Vec<Word> {
    let mut out = Vec::new();
    for (before, line) in text.lines().enumerate() {
        let mut rest = line.split("//").next().unwrap().trim_start();
        assert!(!rest.contains("/*"), "a form of comment to teach this test");
        while !rest.is_empty() {
            let (word, more) = rest.split_at(length(rest));
            out.push(Word {
                text: word.into(),
                line: before + 1,
            });
            rest = more.trim_start();
        }
    }
    out
}

/// How long the first word is.
fn length(rest: &str) -> usize {
    const PAIRS: [&str; 18] = [
        "::", "->", "=>", "==", "!=", "<=", ">=", "+=", "-=", "*=", "/=", "%=", "|=", "&=", "^=",
        "&&", "||", "..",
    ];
    for quote in ["b\"", "\"", "b'"] {
        if let Some(inner) = rest.strip_prefix(quote) {
            let end = inner.find(&quote[quote.len() - 1..]);
            return end.map_or(rest.len(), |end| quote.len() + end + 1);
        }
    }
    let named = |c: char| c.is_ascii_alphanumeric() || c == '_';
    match rest.find(|c| !named(c)).unwrap_or(rest.len()) {
        0 if PAIRS.iter().any(|pair| rest.starts_with(pair)) => 2,
        0 => rest.chars().next().unwrap().len_utf8(),
        letters => letters,
    }
}

fn find(words: &[Word], from: usize, text: &str) -> usize {
    let found = words[from..].iter().position(|word| word.is(text));
    from + found.unwrap_or_else(|| panic!("line {}: no {text} after it", words[from].line))
}

/// Where the bracket at `open` is closed.
pub fn closing(words: &[Word], open: usize) -> usize {
    let close = match words[open].text.as_str() {
        "(" => ")",
        "[" => "]",
        _ => "}",
    };
    let mut depth = 0;
    for (at, word) in words.iter().enumerate().skip(open) {
        if word.is(&words[open].text) {
            depth += 1;
        } else if word.is(close) {
            depth -= 1;
        }
        if depth == 0 {
            return at;
        }
    }
    panic!("line {}: a bracket that is not closed", words[open].line)
}

/// What stands between the commas that are in no bracket.
fn parts(words: &[Word], within: Range<usize>) -> Vec<Range<usize>> {
    let mut out = Vec::new();
    let mut start = within.start;
    let mut at = within.start;
    while at < within.end {
        if words[at].is(",") {
            out.push(start..at);
            start = at + 1;
        }
        at = match words[at].text.as_str() {
            "(" | "[" | "{" => closing(words, at) + 1,
            _ => at + 1,
        };
    }
    out.push(start..within.end);
    out.retain(|part| !part.is_empty());
    out
}

/// A call in a body: the path before its bracket, and where each argument stands.
#[derive(Clone)]
pub struct Call {
    pub path: Vec<String>,
    pub line: usize,
    pub arguments: Vec<Range<usize>>,
    pub is_method: bool,
}

/// The calls of a body. What begins with a capital puts a value together.
pub fn calls(body: &[Word]) -> Vec<Call> {
    let mut out = Vec::new();
    for open in (1..body.len()).filter(|at| body[*at].is("(")) {
        let name = &body[open - 1];
        if !name.is_value_name() || name.text.starts_with(char::is_uppercase) {
            continue;
        }
        let mut first = open - 1;
        while first >= 2 && body[first - 1].is("::") {
            first -= 2;
        }
        let path = body[first..open].iter().step_by(2);
        out.push(Call {
            path: path.map(|word| word.text.clone()).collect(),
            line: name.line,
            arguments: parts(body, open + 1..closing(body, open)),
            is_method: first > 0 && body[first - 1].is("."),
        });
    }
    out
}

/// The paths of two names and more in some words, as `a::b`.
pub fn paths(words: &[Word]) -> Vec<Vec<String>> {
    let mut out = Vec::new();
    let mut at = 0;
    while at < words.len() {
        let mut end = at;
        while words[end].is_name() && end + 2 < words.len() && words[end + 1].is("::") {
            end += 2;
        }
        if end > at {
            let names = words[at..=end].iter().step_by(2);
            out.push(names.map(|word| word.text.clone()).collect());
        }
        at = end + 1;
    }
    out
}
