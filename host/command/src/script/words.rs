//! The words of a line, as a shell would split it: those that stand alone, in their order, and pairs as `thickness=10`.

use shlex::Shlex;
use std::env;
use std::ffi::OsString;
use std::path::PathBuf;
use std::str::FromStr;

pub struct Words {
    /// In the line's order, each until it is taken.
    words: Vec<Option<String>>,
    /// Behind the last one taken of those that stand alone.
    at: usize,
}

impl Words {
    /// Quotes and backslashes are the shell's; from a word that begins with # on it is for people.
    pub fn of(line: &str) -> Result<Self, String> {
        // the last line of a file from elsewhere may end so, without a line feed
        let mut split = Shlex::new(line.trim_end_matches('\r'));
        let words = split.by_ref().map(Some).collect();
        if split.had_error {
            return Err("a quote is not closed on its line, or a backslash ends the line".into());
        }
        Ok(Self { words, at: 0 })
    }

    /// The next word that stands alone.
    pub fn next(&mut self) -> Option<String> {
        let alone = |word: &Option<String>| word.as_ref().is_some_and(|word| !word.contains('='));
        let behind = self.words.iter().skip(self.at).position(alone)?;
        self.take(self.at + behind)
    }

    fn take(&mut self, at: usize) -> Option<String> {
        self.at = at + 1;
        self.words.get_mut(at)?.take()
    }

    pub fn needed(&mut self, what: &str) -> Result<String, String> {
        self.next().ok_or_else(|| missing(what))
    }

    /// The next word, whatever is in it, as the name of a file.
    pub fn file(&mut self, what: &str) -> Result<PathBuf, String> {
        let word = self.take(self.at).filter(|word| !word.is_empty());
        expanded(word.ok_or_else(|| missing(what))?, env::var_os("HOME"))
    }

    pub fn number<T: FromStr>(&mut self, what: &str) -> Result<T, String> {
        read(&self.needed(what)?, what)
    }

    /// The value of a pair, taken out.
    pub fn pair(&mut self, name: &str) -> Option<String> {
        let value = |word: &Option<String>| word.as_ref()?.strip_prefix(name)?.strip_prefix('=').map(String::from);
        let word = self.words.iter_mut().find(|word| value(word).is_some())?;
        let found = value(word);
        *word = None;
        found
    }

    pub fn value(&mut self, name: &str) -> Result<String, String> {
        self.pair(name).ok_or_else(|| missing(&format!("{name}=")))
    }

    /// A pair's number, or what is usual.
    pub fn number_or<T: FromStr>(&mut self, name: &str, usual: T) -> Result<T, String> {
        self.pair(name).map_or(Ok(usual), |word| read(&word, name))
    }

    /// A pair's number.
    pub fn number_of<T: FromStr>(&mut self, name: &str) -> Result<T, String> {
        read(&self.value(name)?, name)
    }

    /// A pair's quantity, with a unit or in SI.
    pub fn quantity(&mut self, name: &str, parse: fn(&str) -> Result<f64, String>) -> Result<f64, String> {
        parse(&self.value(name)?).map_err(|message| format!("{name}: {message}"))
    }

    /// The first word that nothing has asked for.
    pub fn end(self) -> Result<(), String> {
        let left = self.words.into_iter().flatten().next();
        let told = |word: String| match word.split_once('=') {
            Some((name, _)) => format!("there is no {name}= here, or it stands twice"),
            None => format!("{word:?} is one word too many"),
        };
        left.map_or(Ok(()), |word| Err(told(word)))
    }
}

fn missing(what: &str) -> String {
    format!("{what} is missing")
}

/// `~` alone or before a slash is the user's own folder.
fn expanded(word: String, home: Option<OsString>) -> Result<PathBuf, String> {
    let Some(rest) = word.strip_prefix('~').filter(|rest| rest.is_empty() || rest.starts_with('/')) else {
        return Ok(word.into());
    };
    let home = home.filter(|home| !home.is_empty());
    let home = home.ok_or_else(|| format!("{word}: there is no HOME in the environment: name the folder itself"))?;
    Ok(PathBuf::from(home).join(rest.trim_start_matches('/')))
}

pub fn read<T: FromStr>(word: &str, what: &str) -> Result<T, String> {
    word.parse().map_err(|_| format!("{what}: {word:?} is no number of its kind"))
}

#[cfg(test)]
mod tests {
    use super::*;

    fn split(line: &str) -> Vec<String> {
        Words::of(line).unwrap().words.into_iter().flatten().collect()
    }

    #[test]
    fn a_line_is_split_as_a_shell_does() {
        assert_eq!(split("save  'a b'\t\"c d\" e\\ f # don't"), ["save", "a b", "c d", "e f"]);
        assert_eq!(split("save run#2.save #\"no more"), ["save", "run#2.save"]);
        assert_eq!(split("save '#1' \\#2 \"it's\" $HOME *.save żółć\r"), ["save", "#1", "#2", "it's", "$HOME", "*.save", "żółć"]);
        assert!(split("").is_empty() && split(" \t\r").is_empty() && split("# all").is_empty());
        for open in ["save 'a", "save \"a", "save a\\", "save it's"] {
            assert!(Words::of(open).is_err(), "{open}");
        }
    }

    #[test]
    fn a_file_is_the_next_word_whatever_is_in_it() {
        let mut words = Words::of("save a=b.save amplitude=2").unwrap();
        assert_eq!(words.next().as_deref(), Some("save"));
        assert_eq!(words.file("a file").unwrap(), PathBuf::from("a=b.save"));
        assert_eq!(words.number_of::<f64>("amplitude"), Ok(2.0));
        assert!(words.end().is_ok());
        let mut words = Words::of("save ''").unwrap();
        words.next();
        assert_eq!(words.file("a file").unwrap_err(), "a file is missing");
    }

    #[test]
    fn the_users_folder_has_a_short_name() {
        let with = |word: &str, home: Option<&str>| expanded(word.into(), home.map(OsString::from));
        for (word, path) in [("~", "/h"), ("~/a", "/h/a"), ("~//a", "/h/a"), ("~a", "~a"), ("a~", "a~"), ("a/~/b", "a/~/b")] {
            assert_eq!(with(word, Some("/h")), Ok(path.into()), "{word}");
        }
        for home in [None, Some("")] {
            assert!(with("~/a", home).unwrap_err().contains("no HOME"));
            assert_eq!(with("~a", home), Ok("~a".into()));
        }
    }
}
