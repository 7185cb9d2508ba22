//! How deep the parts of a TOML text stand in one another. The reader of TOML goes down by a call for each, and so does whoever drops what it has read: a deep
//! text would take them out of their stack. Of a header it keeps every beginning, which takes memory by the square of its parts.

/// How many brackets and dots may stand around a value: twice what a head has that is written without headers. A table's header may have as many, so that a value
/// is never deeper than twice this.
pub const DEEPEST: usize = 16;

/// The line on which a text gets deeper, if it does.
pub fn too_deep(text: &str) -> Option<usize> {
    let mut bare = Bare { rest: text };
    let (mut around, mut depth) = (Vec::new(), 0_usize);
    while let Some(c) = bare.next() {
        match c {
            '[' | '{' => {
                around.push(depth);
                depth += 1;
            }
            ']' | '}' => depth = around.pop().unwrap_or(0),
            // of a key, as in a.b.c, or in a number
            '.' => depth += 1,
            ',' | '\n' => depth = around.last().map_or(0, |outer| outer + 1),
            _ => {}
        }
        if depth > DEEPEST {
            let before = text.len().saturating_sub(bare.rest.len());
            return Some(1 + text.bytes().take(before).filter(|byte| *byte == b'\n').count());
        }
    }
    None
}

/// The characters of a text without what is in its strings and comments. It takes these as the reader of TOML does, up to where that finds the first fault.
struct Bare<'a> {
    rest: &'a str,
}

impl Iterator for Bare<'_> {
    type Item = char;

    fn next(&mut self) -> Option<char> {
        let mut chars = self.rest.chars();
        let c = chars.next()?;
        self.rest = match c {
            '#' => behind_comment(chars.as_str()),
            '"' | '\'' => behind_string(chars.as_str(), c),
            _ => chars.as_str(),
        };
        Some(c)
    }
}

/// The line's end stays.
fn behind_comment(text: &str) -> &str {
    text.find('\n').and_then(|end| text.get(end..)).unwrap_or("")
}

/// What follows a string, of which one quote has been taken: the string has one on each side, or three.
fn behind_string(text: &str, quote: char) -> &str {
    let Some(long) = text.strip_prefix(quote).and_then(|text| text.strip_prefix(quote)) else {
        return behind_quotes(text, quote, 1);
    };
    // up to two more are the string's own
    let rest = behind_quotes(long, quote, 3);
    let rest = rest.strip_prefix(quote).unwrap_or(rest);
    rest.strip_prefix(quote).unwrap_or(rest)
}

/// What follows so many quotes in a row.
fn behind_quotes(text: &str, quote: char, wanted: usize) -> &str {
    let (mut chars, mut quotes) = (text.chars(), 0);
    while quotes < wanted {
        match chars.next() {
            None => return "",
            Some(c) if c == quote => quotes += 1,
            Some(c) => {
                quotes = 0;
                // a quote behind a backslash is no end; between single quotes a backslash is a letter
                if c == '\\' && quote == '"' {
                    chars.next();
                }
            }
        }
    }
    chars.as_str()
}

#[cfg(test)]
mod tests {
    use super::*;

    fn bare(text: &str) -> String {
        Bare { rest: text }.collect()
    }

    #[test]
    fn strings_and_comments_are_left_out() {
        let cases = [
            (r#"a = "[" ]"#, r#"a = " ]"#),
            (r#"a = "\"[" ]"#, r#"a = " ]"#),
            (r#"a = "\\" ["#, r#"a = " ["#),
            (r"a = '[\' ]", "a = ' ]"),
            (r#"a = "" ["#, r#"a = " ["#),
            ("a = '' [", "a = ' ["),
            (r#"a = """[" "" \""" ['"""]"#, r#"a = "]"#),
            (r#"a = """[""""" ["#, r#"a = " ["#),
            (r#"a = """""" ["#, r#"a = " ["#),
            (r"a = '''['' \''' ]", "a = ' ]"),
            ("# [ \"\n[ # '\n]", "#\n[ #\n]"),
            ("a = '#' [", "a = ' ["),
            ("a = \"[", "a = \""),
            ("a = '''[''", "a = '"),
            ("# [", "#"),
        ];
        for (text, expected) in cases {
            assert_eq!(bare(text), expected, "{text}");
        }
    }

    #[test]
    fn the_line_that_is_too_deep() {
        let at = |open: usize| too_deep(&format!("# [\na = '''\n['''\nb = {}1{}\n", "[".repeat(open), "]".repeat(open)));
        assert_eq!((at(DEEPEST), at(DEEPEST + 1)), (None, Some(4)));
        let dotted = |dots: usize| too_deep(&format!("\n[a]\na{} = 1\n", ".a".repeat(dots)));
        assert_eq!((dotted(DEEPEST), dotted(DEEPEST + 1)), (None, Some(3)));
        let header = |dots: usize| too_deep(&format!("[a{}]\n", ".a".repeat(dots)));
        assert_eq!((header(DEEPEST - 1), header(DEEPEST)), (None, Some(1)));
        // dots of a key stay around what is in its value
        let both = |times: usize| too_deep(&format!("a = {}1{}", "{ a.b.c = ".repeat(times), "}".repeat(times)));
        assert_eq!((both(DEEPEST / 3), both(DEEPEST / 3 + 1)), (None, Some(1)));
    }

    #[test]
    fn what_stands_beside_one_another_is_not_deep() {
        assert_eq!(too_deep(&"a = [1.5, 2.5, [\n1.5,\n{ a.b = 1.5, c.d = 2 }]]\n[b.c.d]\n".repeat(1000)), None);
        assert_eq!(too_deep(&"# cells [0, 4)\n".repeat(1000)), None);
        assert_eq!(too_deep(&format!("a = \"{}\"", "[".repeat(1000))), None);
    }
    /// What is a string or a comment here is one for the reader of TOML: whatever stands before them, brackets that are not seen here do not come to it.
    #[test]
    fn the_reader_of_toml_sees_the_same() {
        let strings =
            ["a=\"", "\"\n", "a='", "'\n", "a=\"\"\"", "\"\"\"\n", "a='''", "'''\n", "\"\"", "''", "\\\"", "\\'", "\\\\"];
        let others = ["\"", "'", "#", "\n", "\r\n", "a=", "[", "]", "{", "}", ".", ",", "[a]\n", " "];
        let marks = [&strings[..], &others].concat();
        let mut state = 1_u64;
        let mut below = |n: usize| {
            state = state.wrapping_mul(6_364_136_223_846_793_005).wrapping_add(1_442_695_040_888_963_407);
            (state >> 33) as usize % n
        };
        let (mut hidden, mut seen) = (0, 0);
        for _ in 0..2_000_000 {
            let text: String = (0..below(8)).map(|_| marks[below(marks.len())]).collect();
            let deep = format!("{text}{}!", "[".repeat(2 * DEEPEST));
            if too_deep(&deep).is_some() {
                seen += 1;
                continue;
            }
            hidden += 1;
            // where the reader of TOML stopped: it takes no mark like the last one but in a string or a comment
            let (line, column) = toml::from_str::<toml::Value>(&deep).err().and_then(|e| e.line_col()).unwrap_or((0, 0));
            let before: usize = deep.split('\n').take(line).map(|line| line.len() + 1).sum();
            assert!(before + column != deep.len() - 1, "{deep:?}");
        }
        assert!(hidden > 100_000 && seen > 100_000, "{hidden} {seen}");
    }
}
