//! What is wrong with a head's file, and at which key.

use crate::document::DEEPEST;
use crate::head::lines::Lines;
use crate::text::plain;
use cichowiej::Refusal;

/// Something that keeps the curve from being computed.
#[derive(Debug, Clone, PartialEq)]
pub struct Trouble {
    place: Place,
    message: String,
}

#[derive(Debug, Clone, PartialEq)]
enum Place {
    Key(String),
    Line(usize),
}

impl Trouble {
    pub fn at(key: impl Into<String>, message: impl Into<String>) -> Self {
        Self { place: Place::Key(key.into()), message: message.into() }
    }

    /// A call of the engine's that the key led to.
    pub fn refused(key: impl Into<String>, refusal: Refusal) -> Self {
        Self::at(key, format!("refused as {refusal}"))
    }

    /// What is no TOML. Of a key that stands twice the reader of TOML has not the place but the name.
    pub fn of_text(error: &toml::de::Error, text: &str) -> Self {
        let message = error.to_string();
        let reported = error.line_col().map_or(1, |(line, _)| line + 1);
        let line = twice(&message).and_then(|key| Lines::of(text).again(&key)).unwrap_or(reported);
        let short = message.rsplit_once(" at line ").map_or(message.as_str(), |(short, _)| short);
        Self { place: Place::Line(line), message: short.into() }
    }

    /// A text whose parts stand deeper in one another than any head's, note's or point's.
    pub fn of_depth(line: usize) -> Self {
        let message = format!("brackets and dotted keys stand more than {DEEPEST} deep in one another");
        Self { place: Place::Line(line), message }
    }

    /// What is TOML and no head. The message's words for Rust's types are put into a reader's.
    pub fn of_value(key: &str, message: &str) -> Self {
        // the key stands before the message already
        let short = message.rsplit_once(" for key `").map_or(message, |(short, _)| short);
        let plain = [
            ("expected usize", "expected a whole number, 0 or more"),
            ("expected f64", "expected a number"),
            ("a sequence", "a list in brackets"),
        ]
        .iter()
        .fold(short.to_string(), |text, (old, new)| text.replace(old, new));
        let plain = match plain.split_once("expected struct ") {
            Some((before, _)) => format!("{before}expected a table"),
            None => plain,
        };
        Self::at(key, plain)
    }

    /// As it is printed: file, line, key, message. Key and message may have words of the file.
    pub fn located(&self, file: &str, text: &str) -> String {
        let message = plain(&self.message);
        match &self.place {
            Place::Line(line) => format!("{file}:{line}: {message}"),
            // the whole file
            Place::Key(key) if key == "." => format!("{file}: {message}"),
            Place::Key(key) => format!("{file}:{}: {}: {message}", Lines::of(text).line(key), plain(key)),
        }
    }
}

/// The key of "duplicate key: `a` for key `b` .." or "redefinition of table `b` ..".
fn twice(message: &str) -> Option<String> {
    let quoted = |after: &str| Some(message.split_once(after)?.1.split_once('`')?.0.to_string());
    match quoted("duplicate key: `") {
        Some(key) => Some(quoted(" for key `").map_or(key.clone(), |table| format!("{table}.{key}"))),
        None => quoted("redefinition of table `"),
    }
}
