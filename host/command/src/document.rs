//! The one reader of TOML, for heads, notes and points: no text is too deep for it, and what is wrong with a text is told with its line.

mod depth;

use crate::head::trouble::Trouble;
pub use depth::DEEPEST;
use serde::de::DeserializeOwned;

/// What a text says.
pub fn parse<T: DeserializeOwned>(text: &str) -> Result<T, Trouble> {
    if let Some(line) = depth::too_deep(text) {
        return Err(Trouble::of_depth(line));
    }
    let value: toml::Value = toml::from_str(text).map_err(|error| Trouble::of_text(&error, text))?;
    serde_path_to_error::deserialize(value)
        .map_err(|error| Trouble::of_value(&error.path().to_string(), &error.inner().to_string()))
}

#[cfg(test)]
mod tests {
    use super::*;

    /// As deep as it may be, in header, key and brackets together: read, and dropped.
    #[test]
    fn the_deepest_text_is_read() {
        let header = vec!["a"; DEEPEST].join(".");
        let values =
            ["[".repeat(DEEPEST) + "1" + &"]".repeat(DEEPEST), "{a.b.c=".repeat(DEEPEST / 3) + "1" + &"}".repeat(DEEPEST / 3)];
        for value in values {
            let text = format!("[{header}]\nx = {value}\n");
            assert!(parse::<toml::Value>(&text).is_ok(), "{text}");
        }
    }
}
