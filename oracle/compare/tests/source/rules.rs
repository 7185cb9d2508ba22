//! What a function may do with bytes that writes each number straight to its place: what is allowed, and not a list
//! of what is wrong.
//!
//! The room is what a function is lent as `&mut [u8]`.

use crate::code::{Call, Function, Word, closing};
use crate::tree::{Reached, Tree};
use std::fmt;
use std::ops::Range;

const ROOM: &str = "&mut [u8]";
const BYTES: &str = "&[u8]";

/// What the language has by itself: functions, and methods.
const BUILT_IN: [&str; 2] = ["f64::to_bits", "f64::from_bits"];
const METHODS: [&str; 3] = ["len", "is_err", "is_finite"];

pub struct Finding {
    pub path: String,
    pub line: usize,
    what: String,
}

impl fmt::Display for Finding {
    fn fmt(&self, f: &mut fmt::Formatter) -> fmt::Result {
        write!(f, "{}:{}: {}", self.path, self.line, self.what)
    }
}

/// All that the functions reached, and the files that theirs name, have of bytes between.
pub fn findings(tree: &Tree, reached: &[Reached]) -> Vec<Finding> {
    let mut out = Vec::new();
    for module in tree.named(reached) {
        let lines = items(&tree.file(module).items);
        out.extend(placed(tree.path(module), "outside of functions", lines));
    }
    for one in reached {
        let rules = [
            signature(one.function),
            body(one.function),
            followed(one),
            handed_on(one),
            written_only(one),
            not_copied(one),
        ];
        let place = format!("in {}", one.function.name);
        out.extend(placed(one.path, &place, rules.concat()));
    }
    out
}

type Lines = Vec<(usize, String)>;

fn placed(path: &str, place: &str, lines: Lines) -> Vec<Finding> {
    let finding = |(line, what)| Finding {
        path: path.into(),
        line,
        what: format!("{place}: {what}"),
    };
    lines.into_iter().map(finding).collect()
}

/// A number with the type u8, or bytes as text.
fn is_literal(word: &Word) -> bool {
    let text = word.text.as_str();
    let typed = text.starts_with(|c: char| c.is_ascii_digit()) && text.ends_with("u8");
    typed || text.starts_with("b\"") || text.starts_with("b'")
}

/// Types and constants hold no bytes but a slice of somebody else's, and no type is another name for them.
fn items(words: &[Word]) -> Lines {
    let mut out = Lines::new();
    for (at, word) in words.iter().enumerate() {
        let slice = at > 0 && words[at - 1].is("[") && words[at + 1].is("]");
        if is_literal(word) || (word.is("u8") && !slice) {
            out.push((word.line, "bytes in a type or a constant".into()));
        }
    }
    out
}

/// Bytes are lent, or one is handed over: no function takes an array of them, or gives more than one.
fn signature(f: &Function) -> Lines {
    let has_bytes = |of: &str| {
        let mut names = of.split(|c: char| !(c.is_ascii_alphanumeric() || c == '_'));
        names.any(|name| name == "u8")
    };
    let mut out = Lines::new();
    for parameter in &f.takes {
        let of = parameter.of.as_str();
        if has_bytes(of) && ![BYTES, ROOM, "u8"].contains(&of) {
            out.push((f.line, format!("takes {of}")));
        }
    }
    if has_bytes(&f.gives) && f.gives != "u8" {
        out.push((f.line, format!("returns {}", f.gives)));
    }
    out
}

/// A number is cut down to a byte (`as u8`) only where the room is lent, and there no array is made, of whatever
/// type.
fn body(f: &Function) -> Lines {
    let has_room = !f.lent(ROOM).is_empty();
    let mut out = Lines::new();
    for (at, word) in f.body.iter().enumerate() {
        let before = |text: &str| at > 0 && f.body[at - 1].is(text);
        let cast = before("as") && has_room;
        let indexes = at > 0 && (f.body[at - 1].is_value_name() || before(")") || before("]"));
        if is_literal(word) || (word.is("u8") && !cast) {
            out.push((word.line, "a byte, or an array of bytes, of its own".into()));
        } else if word.is("[") && has_room && !indexes {
            out.push((word.line, "an array beside the room".into()));
        }
    }
    out
}

/// Every call is of a function that is looked at too.
fn followed(one: &Reached) -> Lines {
    let known = |call: &Call| match call.is_method {
        true => METHODS.contains(&call.path.join("::").as_str()),
        false => BUILT_IN.contains(&call.path.join("::").as_str()),
    };
    let mut out = Lines::new();
    for (call, to) in &one.calls {
        if to.is_none() && !known(call) {
            let name = call.path.join("::");
            out.push((call.line, format!("calls {name}, which cannot be followed")));
        }
    }
    out
}

/// An argument: where it stands in the body, the type that it goes to, and what is called.
type Argument<'a> = (Range<usize>, &'a str, &'a Function);

fn arguments<'a>(one: &'a Reached) -> impl Iterator<Item = Argument<'a>> {
    let known = one
        .calls
        .iter()
        .filter_map(|(call, to)| Some((call, (*to)?)));
    known.flat_map(|(call, to)| {
        // a method's own value stands before its name
        let takes = to.takes.iter().skip(usize::from(call.is_method));
        let types = takes.map(|parameter| parameter.of.as_str());
        let pairs = call.arguments.iter().cloned().zip(types);
        pairs.map(move |(argument, of)| (argument, of, to))
    })
}

/// Where a room or bytes are wanted, those that were lent are handed on: the room whole, of bytes also a part.
fn handed_on(one: &Reached) -> Lines {
    let mut out = Lines::new();
    for (argument, of, to) in arguments(one) {
        let words = &one.function.body[argument];
        let own = |word: &Word| one.function.lent(of).contains(&word.text.as_str());
        let whole = words.len() == 1 && own(&words[0]);
        let part = of == BYTES && words.len() > 3 && words[0].is("&") && own(&words[1]);
        let part = part && words[2].is("[") && closing(words, 2) == words.len() - 1;
        if [ROOM, BYTES].contains(&of) && !whole && !part {
            out.push((words[0].line, format!("hands other bytes to {}", to.name)));
        }
    }
    out
}

/// Where a body has a parameter of a type, other than for its length.
fn uses(f: &Function, of: &str) -> Vec<usize> {
    let names = f.lent(of);
    let is_length =
        |at: usize| matches!(&f.body[at + 1..], [dot, len, ..] if dot.is(".") && len.is("len"));
    let all = (0..f.body.len()).filter(|at| names.contains(&f.body[*at].text.as_str()));
    all.filter(|at| !is_length(*at)).collect()
}

/// The room is written: at a place, by a value that is no element of anything, or by a function that it is lent
/// to. It is never read back.
fn written_only(one: &Reached) -> Lines {
    let body = &one.function.body;
    let lent: Vec<usize> = arguments(one)
        .filter(|(argument, of, _)| *of == ROOM && argument.len() == 1)
        .map(|(argument, ..)| argument.start)
        .collect();
    let mut out = Lines::new();
    for at in uses(one.function, ROOM) {
        if !lent.contains(&at) && !is_set(&body[at + 1..]) {
            let what = format!("{} is not only written", body[at].text);
            out.push((body[at].line, what));
        }
    }
    out
}

/// `[place] = value;` with no element of anything in the value.
fn is_set(after: &[Word]) -> bool {
    if !after.first().is_some_and(|word| word.is("[")) {
        return false;
    }
    let rest = &after[closing(after, 0) + 1..];
    let value = rest.split(|word| word.is(";")).next().unwrap_or_default();
    rest.first().is_some_and(|word| word.is("=")) && !value.iter().any(|word| word.is("["))
}

/// A function that is lent bytes to read beside the room only hands them on: to one that gets the room too, or
/// that answers yes or no, or a struct.
fn not_copied(one: &Reached) -> Lines {
    let body = &one.function.body;
    let no_number = |to: &Function| to.gives == "bool" || to.gives.starts_with(char::is_uppercase);
    let fine: Vec<usize> = arguments(one)
        .filter(|(_, _, to)| !to.lent(ROOM).is_empty() || no_number(to))
        .map(|(argument, ..)| argument.start)
        .collect();
    let mut out = Lines::new();
    for at in uses(one.function, BYTES) {
        if !one.function.lent(ROOM).is_empty() && !fine.contains(&at) {
            let what = format!("{} is read beside the room", body[at].text);
            out.push((body[at].line, what));
        }
    }
    out
}
