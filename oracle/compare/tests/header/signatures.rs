//! Functions as texts declare them, in C's words: the answer's type, and then each parameter's type
//! and name.

use std::collections::BTreeMap;

pub type Signatures = BTreeMap<String, Vec<String>>;

const NAMES: &str = "cichowiej_";

/// The declarations of a header; what it defines itself (`static inline`) is left out.
pub fn of_header(text: &str) -> Signatures {
    let text = without(text, "/*", "*/").replace("\\\n", " ");
    let text = without(&text, "#", "\n");
    let text = outside_braces(&text.replace("extern \"C\" {", ""));
    let declarations = text.split(';').map(str::trim).filter(|d| d.contains('('));
    declarations
        .filter(|d| !d.starts_with("static inline"))
        .map(of_declaration)
        .collect()
}

/// The text without what stands in braces; a brace that closes ends a declaration.
fn outside_braces(text: &str) -> String {
    let (mut depth, mut kept) = (0_usize, String::new());
    for c in text.chars() {
        match c {
            '{' => depth += 1,
            '}' => {
                depth = depth.saturating_sub(1);
                kept.push(if depth == 0 { ';' } else { ' ' });
            }
            _ if depth == 0 => kept.push(c),
            _ => {}
        }
    }
    kept
}

fn of_declaration(text: &str) -> (String, Vec<String>) {
    let (before, rest) = text.split_once('(').unwrap();
    let (answer, name) = before.rsplit_once(' ').unwrap();
    let parameters = rest.strip_suffix(')').unwrap().split(',');
    let parameters = parameters.map(|p| words(&p.replace('*', " * ")));
    let parameters = parameters.filter(|p| p != "void");
    let signature = [words(answer)].into_iter().chain(parameters).collect();
    (name.to_string(), signature)
}

/// The functions of a source in Rust's or Rattle's form that have `lead` before the engine's names. A
/// lifetime is nothing to C.
pub fn of_source(text: &str, lead: &str) -> Signatures {
    let text = without(text, "//", "\n")
        .replace("<'a>", "")
        .replace("&'a ", "&");
    let lead = format!("{lead}{NAMES}");
    text.split(&lead).skip(1).map(of_function).collect()
}

/// The text starts in the name, after what all names have in common.
fn of_function(text: &str) -> (String, Vec<String>) {
    let (function, rest) = text.split_once('(').unwrap();
    let (parameters, rest) = rest.split_once(')').unwrap();
    let answer = rest.trim_start().strip_prefix("->").unwrap();
    let answer = answer.split([';', '{', '\n']).next().unwrap();
    let parameters = parameters.split(',').filter_map(|p| p.split_once(':'));
    let parameters = parameters.flat_map(|(name, kind)| {
        let name = in_the_header(name.trim());
        in_c(&words(kind), name)
    });
    let answer = scalar(&words(answer));
    let signature = [answer].into_iter().chain(parameters).collect();
    (format!("{NAMES}{function}"), signature)
}

/// The header names the block in full.
fn in_the_header(name: &str) -> &str {
    if name == "b" { "block" } else { name }
}

/// A slice is a pointer and a length.
fn in_c(kind: &str, name: &str) -> Vec<String> {
    let prefixes = [
        ("&mut [", "", true),
        ("&[", "const ", true),
        ("*mut ", "", false),
        ("*const ", "const ", false),
    ];
    for (prefix, constant, slice) in prefixes {
        if let Some(element) = kind.strip_prefix(prefix) {
            let element = scalar(element.trim_end_matches(']'));
            let length = slice.then(|| format!("size_t {name}_length"));
            let pointer = format!("{constant}{element} * {name}");
            return [pointer].into_iter().chain(length).collect();
        }
    }
    vec![format!("{} {name}", scalar(kind))]
}

fn scalar(kind: &str) -> String {
    let pairs = [
        ("f64", "double"),
        ("usize", "size_t"),
        ("u32", "uint32_t"),
        ("u8", "uint8_t"),
        ("bool", "bool"),
    ];
    let found = pairs.iter().find(|(name, _)| *name == kind);
    found.map_or(kind.to_string(), |(_, name)| name.to_string())
}

fn words(text: &str) -> String {
    text.split_whitespace().collect::<Vec<_>>().join(" ")
}

/// The text without what stands from `start` up to `end`; a line's end is left.
fn without(text: &str, start: &str, end: &str) -> String {
    let mut parts = text.split(start);
    let mut kept = parts.next().unwrap_or_default().to_string();
    for part in parts {
        if let Some((_, after)) = part.split_once(end) {
            kept += if end == "\n" { end } else { " " };
            kept += after;
        }
    }
    kept
}
