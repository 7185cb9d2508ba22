//! Texts from outside: shown on a terminal or a page, read up to a limit.

use std::fs::{self, File};
use std::io::{self, Read};
use std::path::Path;

/// A text on one line of a terminal or a picture, whatever is in it.
pub fn plain(text: &str) -> String {
    text.chars().map(shown).collect()
}

/// Words of a file's in a message: no more of them than tell what they are.
pub fn brief(text: &str) -> String {
    let (mut chars, most) = (text.chars(), 80);
    let first: String = chars.by_ref().take(most).collect();
    plain(&first) + if chars.next().is_some() { ".." } else { "" }
}

/// The same of a message whose line ends are its own.
pub fn plain_lines(message: &str) -> String {
    message.split('\n').map(plain).collect::<Vec<String>>().join("\n")
}

/// A character, or the code of one that commands a terminal or that XML 1.0 has no place for.
pub fn shown(c: char) -> String {
    let code = c.is_control() || matches!(c, '\u{fffe}' | '\u{ffff}');
    if code { c.escape_default().to_string() } else { c.to_string() }
}

/// A kind of file, and how many bytes one of it may have.
pub struct Kind {
    name: &'static str,
    longest: u64,
}

impl Kind {
    /// What a person hands over: a file, or a pipe.
    pub const INPUT: Self = Self { name: "a head or a script", longest: 64 << 20 };
    pub const TABLE: Self = Self { name: "a table", longest: 256 << 20 };
    /// Both lie in folders, and are far shorter.
    pub const NOTE: Self = Self { name: "a note", longest: 1 << 20 };
    pub const POINT: Self = Self { name: "a point", longest: 1 << 20 };

    /// All of it.
    pub fn read(&self, from: impl Read) -> io::Result<Vec<u8>> {
        let bytes = read_up_to(from, self.longest)?;
        if bytes.len() as u64 > self.longest {
            return Err(io::Error::other(format!("longer than {} may be, {} MiB", self.name, self.longest >> 20)));
        }
        Ok(bytes)
    }

    /// A person's file as text; what is wrong with it is told with its name.
    pub fn read_text(&self, path: &Path) -> Result<String, String> {
        let told = |message: String| format!("{}: {message}", path.display());
        let bytes = File::open(path).and_then(|file| self.read(file)).map_err(|e| told(e.to_string()))?;
        String::from_utf8(bytes).map_err(|e| told(format!("not UTF-8 from byte {} on", e.utf8_error().valid_up_to())))
    }
}

/// A file that lies in a folder. What is none is not opened: a pipe would be waited for.
pub fn open_file(path: &Path) -> io::Result<File> {
    if fs::metadata(path)?.is_file() { File::open(path) } else { Err(io::Error::other("this is no file")) }
}

/// The bytes up to a limit and, where there are more, one of these, so that whoever judges the length finds it too long.
pub fn read_up_to(from: impl Read, limit: u64) -> io::Result<Vec<u8>> {
    let mut bytes = Vec::new();
    from.take(limit.saturating_add(1)).read_to_end(&mut bytes)?;
    Ok(bytes)
}

#[cfg(test)]
mod tests {
    use super::*;

    #[test]
    fn a_text_stays_on_its_line() {
        assert_eq!(plain("a\nb\u{1b}[2Jc\u{9b}d żółć"), "a\\nb\\u{1b}[2Jc\\u{9b}d żółć");
    }

    #[test]
    fn long_words_are_cut() {
        assert_eq!(brief(&"\u{1b}x".repeat(41)), "\\u{1b}x".repeat(40) + "..");
        assert_eq!(brief("short"), "short");
    }

    #[test]
    fn line_ends_of_a_message_stay() {
        assert_eq!(plain_lines("a\r\nb\u{1b}\n"), "a\\r\nb\\u{1b}\n");
    }

    #[test]
    fn what_xml_forbids_is_shown_by_its_code() {
        assert_eq!(plain("\u{0}\u{1}\u{fffd}\u{fffe}\u{ffff}\u{1fffe}"), "\\u{0}\\u{1}\u{fffd}\\u{fffe}\\u{ffff}\u{1fffe}");
    }

    #[test]
    fn what_is_too_long_is_an_error() {
        let kind = Kind { name: "a word", longest: 3 };
        assert_eq!(kind.read(&b"abc"[..]).unwrap(), b"abc");
        assert!(kind.read(&b"abcd"[..]).unwrap_err().to_string().contains("longer than a word may be"));
    }

    #[test]
    fn one_byte_more_than_the_limit_is_read() {
        assert_eq!(read_up_to(&b"abcdef"[..], 3).unwrap(), b"abcd");
        assert_eq!(read_up_to(&b"abc"[..], 3).unwrap(), b"abc");
        assert!(read_up_to(&b"abc"[..], u64::MAX).is_ok());
    }
}
