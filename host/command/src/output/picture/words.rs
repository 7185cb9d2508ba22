//! Texts in lines that fit the picture.

use crate::text::plain;

/// The most lines of one text: a longer one ends with "..", and the page has all of it.
const MOST_LINES: usize = 12;

const BLANKS: [char; 4] = [' ', '\n', '\r', '\t'];

/// A character's width in hundredths of the font's size, as wide as it is in the usual fonts without serifs or wider.
fn breadth(c: char) -> i32 {
    match c {
        ' ' | 'f' | 'i' | 'j' | 'l' | 'r' | 't' | 'I' | '.' | ',' | ':' | ';' | '-' | '\'' | '(' | ')' | '/' => 42,
        'm' | 'w' | 'M' | 'W' | '%' | '@' => 100,
        'a'..='z' | '0'..='9' | '_' | '\u{df}'..='\u{17f}' => 65,
        '!'..='~' | '\u{a0}'..='\u{de}' | '\u{370}'..='\u{3ff}' => 85,
        _ => 130,
    }
}

fn width(text: &str) -> i32 {
    text.chars().map(breadth).fold(0, i32::saturating_add)
}

/// A text in lines of a width in hundredths of the font's size. They end between words; a longer word is cut. Any control character that is no
/// blank is shown by its code.
pub fn wrapped(text: &str, most: i32) -> Vec<String> {
    let mut lines = vec![String::new()];
    for word in text.split(BLANKS).filter(|word| !word.is_empty()).flat_map(|word| pieces(&plain(word), most)) {
        match lines.last_mut() {
            Some(last) if last.is_empty() => last.push_str(&word),
            Some(last) if width(last) + breadth(' ') + width(&word) <= most => *last += &format!(" {word}"),
            _ => lines.push(word),
        }
    }
    cut(lines)
}

/// A word in pieces that are no wider.
fn pieces(word: &str, most: i32) -> Vec<String> {
    let mut pieces = vec![String::new()];
    for c in word.chars() {
        match pieces.last_mut() {
            Some(last) if width(last) + breadth(c) <= most => last.push(c),
            _ => pieces.push(c.into()),
        }
    }
    pieces
}

fn cut(mut lines: Vec<String>) -> Vec<String> {
    if lines.len() > MOST_LINES {
        lines.truncate(MOST_LINES);
        lines.iter_mut().skip(MOST_LINES - 1).for_each(|last| last.push_str(" .."));
    }
    lines
}

#[cfg(test)]
mod tests {
    use super::*;

    #[test]
    fn lines_end_between_words() {
        assert_eq!(wrapped("one two\nthree", 65 * 8), ["one two", "three"]);
        assert_eq!(wrapped("", 100), [""]);
    }

    #[test]
    fn a_long_word_is_cut() {
        assert_eq!(wrapped("a WWWWW b", 210), ["a", "WW", "WW", "W b"]);
        assert_eq!(wrapped("WW", 1).concat(), "WW");
    }

    #[test]
    fn a_very_long_text_says_that_it_goes_on() {
        let lines = wrapped(&"word ".repeat(10_000), 1000);
        assert!(lines.len() == MOST_LINES && lines.last().unwrap().ends_with("word .."), "{lines:?}");
    }
}
