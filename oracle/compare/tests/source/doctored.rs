//! Writers that put bytes somewhere between, each with the lines that have to be told: all of them, and no other.

use crate::tree::Texts;

pub struct Doctored {
    pub what: &'static str,
    changes: &'static [Change],
    pub told: &'static [(&'static str, &'static str)],
}

/// A file, what stands in it once, and what is put there. With nothing to stand in it, it is a new file.
struct Change(&'static str, &'static str, &'static str);

impl Doctored {
    pub fn apply(&self, texts: &Texts) -> Texts {
        let mut out = texts.clone();
        for Change(path, old, new) in self.changes {
            let text = out.entry((*path).into()).or_default();
            assert_eq!(text.matches(old).count(), 1, "{}: {path}", self.what);
            *text = text.replace(old, new);
        }
        out
    }
}

const FLOATS: &str = "crates/codec/src/floats.rt";
const FRAME: &str = "crates/codec/src/frame.rt";
const STORES: &str = "crates/codec/src/stores.rt";
const WORDS: &str = "crates/codec/src/words.rt";
const DISPERSION: &str = "crates/dispersion/src/lib.rt";
const GRID: &str = "crates/grid/src/lib.rt";
const HEADS: &str = "crates/heads/src/lib.rt";
const ON_BLOCK: &str = "crates/on_block/src/saving.rt";
const PUTS: &str = "crates/puts/src/lib.rt";

/// What `put_f64` does.
const PUT_F64: &str = "
    put_u64(out, at, bits_of(x));
";
/// Where the C function's inner one calls the writer.
const SAVE: &str = "
    saves::save(";

const NEW_FILE: Change = Change(
    WORDS,
    "",
    "
use super::numbers::put_u64;

pub fn put_word(out: &mut [u8], at: usize, n: u64) {
    let mut word = [0; 8];
    put_u64(out, at, n);
}",
);

pub const ALL: [Doctored; 17] = [
    Doctored {
        what: "a scratch array, and its bytes copied",
        changes: &[Change(
            FLOATS,
            PUT_F64,
            "
    let mut scratch = [0u8; 8];
    put_u64(&mut scratch, 0, bits_of(x));
    let mut i = 0;
    while i < 8 {
        out[at + i] = scratch[i];
        i += 1;
    }
",
        )],
        told: &[
            (FLOATS, "let mut scratch = [0u8; 8];"),
            (FLOATS, "put_u64(&mut scratch, 0, bits_of(x));"),
            (FLOATS, "out[at + i] = scratch[i];"),
        ],
    },
    Doctored {
        what: "a scratch array whose type is said nowhere",
        changes: &[Change(
            FLOATS,
            PUT_F64,
            "
    let mut scratch = [0; 8];
    scratch[0] = (bits_of(x) % 256) as u8;
    let low = scratch[0];
    out[at] = low;
",
        )],
        told: &[(FLOATS, "let mut scratch = [0; 8];")],
    },
    Doctored {
        what: "a scratch array where no room is lent",
        changes: &[Change(
            FLOATS,
            "
        f64::to_bits(x)
",
            "
        let scratch = [0u8; 8];
        super::numbers::get_u64(&scratch, 0)
",
        )],
        told: &[
            (FLOATS, "let scratch = [0u8; 8];"),
            (FLOATS, "super::numbers::get_u64(&scratch, 0)"),
        ],
    },
    Doctored {
        what: "a helper that returns a number's bytes",
        changes: &[Change(
            FLOATS,
            PUT_F64,
            "
    let b = bytes_of(bits_of(x));
    out[at] = b[0];
}

fn bytes_of(n: u64) -> [u8; 8] {
    [(n % 256) as u8, 0, 0, 0, 0, 0, 0, 0]
",
        )],
        told: &[
            (FLOATS, "out[at] = b[0];"),
            (FLOATS, "fn bytes_of(n: u64) -> [u8; 8] {"),
            (FLOATS, "[(n % 256) as u8, 0, 0, 0, 0, 0, 0, 0]"),
        ],
    },
    Doctored {
        what: "a helper that takes a number's bytes",
        changes: &[Change(
            FLOATS,
            PUT_F64,
            "
    put_bytes(out, at, bits_of(x));
}

fn put_bytes(out: &mut [u8], at: usize, b: [u8; 8]) {
    put_u64(out, at, 0);
",
        )],
        told: &[(
            FLOATS,
            "fn put_bytes(out: &mut [u8], at: usize, b: [u8; 8]) {",
        )],
    },
    Doctored {
        what: "a helper that returns a part of the room",
        changes: &[Change(
            FLOATS,
            PUT_F64,
            "
    put_u64(from(out, at), 0, bits_of(x));
}

fn from(out: &mut [u8], at: usize) -> &mut [u8] {
    &mut out[at..]
",
        )],
        told: &[
            (FLOATS, "put_u64(from(out, at), 0, bits_of(x));"),
            (FLOATS, "fn from(out: &mut [u8], at: usize) -> &mut [u8] {"),
            (FLOATS, "&mut out[at..]"),
        ],
    },
    Doctored {
        what: "a copy loop",
        changes: &[
            Change(
                ON_BLOCK,
                SAVE,
                "
    copy(out, 6, b);
    saves::save(",
            ),
            Change(
                ON_BLOCK,
                "pub fn rewind(",
                "
fn copy(out: &mut [u8], at: usize, s: &[u8]) {
    let mut i = 0;
    while i < s.len() {
        out[at + i] = s[i];
        i += 1;
    }
}

pub fn rewind(",
            ),
        ],
        told: &[(ON_BLOCK, "out[at + i] = s[i];")],
    },
    Doctored {
        what: "a copy number by number",
        changes: &[Change(
            ON_BLOCK,
            SAVE,
            "
    let n = codec::numbers::get_u64(b, 0);
    codec::numbers::put_u64(out, 6, n);
    saves::save(",
        )],
        told: &[(ON_BLOCK, "let n = codec::numbers::get_u64(b, 0);")],
    },
    Doctored {
        what: "a number written elsewhere in the room, and moved",
        changes: &[Change(
            STORES,
            "
        put_u32(out, at, self);
",
            "
        put_u32(out, at - 4, self);
        put_u32(out, at, get_u32(out, at - 4));
",
        )],
        told: &[(STORES, "put_u32(out, at, get_u32(out, at - 4));")],
    },
    Doctored {
        what: "a new file, by a `use` line",
        changes: &[
            NEW_FILE,
            Change(
                FLOATS,
                "use super::numbers::put_u64;",
                "use super::words::put_word;",
            ),
            Change(
                FLOATS,
                PUT_F64,
                "
    put_word(out, at, bits_of(x));
",
            ),
        ],
        told: &[(WORDS, "let mut word = [0; 8];")],
    },
    Doctored {
        what: "a new file, by its path",
        changes: &[
            NEW_FILE,
            Change(
                FLOATS,
                PUT_F64,
                "
    crate::words::put_word(out, at, bits_of(x));
",
            ),
        ],
        told: &[(WORDS, "let mut word = [0; 8];")],
    },
    Doctored {
        what: "a function that is in no crate here",
        changes: &[Change(FLOATS, "f64::to_bits(x)", "bytes::to_bits(x)")],
        told: &[(FLOATS, "bytes::to_bits(x)")],
    },
    Doctored {
        what: "a constant of bytes",
        changes: &[Change(
            FRAME,
            "use refusals::{Refusal, require};",
            "use refusals::{Refusal, require};
const EMPTY: [u8; 6] = [0; 6];",
        )],
        told: &[(FRAME, "const EMPTY: [u8; 6] = [0; 6];")],
    },
    Doctored {
        what: "bytes in a type of another file, and under another name",
        changes: &[
            Change(
                GRID,
                "pub struct Record {",
                "pub struct Record {
    pub payload: [u8; 125],",
            ),
            Change(
                HEADS,
                "pub const GH_LENGTH",
                "type Byte = u8;
pub const GH_LENGTH",
            ),
        ],
        told: &[
            (GRID, "pub payload: [u8; 125],"),
            (HEADS, "type Byte = u8;"),
        ],
    },
    Doctored {
        what: "a number's bytes as the fields of a struct",
        changes: &[
            Change(
                FLOATS,
                PUT_F64,
                "
    let n = bits_of(x);
    let low = Pair { a: (n % 256) as u8, b: (n / 256 % 256) as u8 };
    out[at] = low.a;
    out[at + 1] = low.b;
",
            ),
            Change(
                FLOATS,
                "// An f64 as",
                "
struct Pair {
    a: u8,
    b: u8,
}
// An f64 as",
            ),
        ],
        told: &[(FLOATS, "a: u8,"), (FLOATS, "b: u8,")],
    },
    Doctored {
        what: "an array of bytes in a method",
        changes: &[Change(
            DISPERSION,
            "
        let k = self.coeffs(eps0, dt);
",
            "
        let k = self.coeffs(eps0, dt);
        let scratch = [0u8; 25];
",
        )],
        told: &[(DISPERSION, "let scratch = [0u8; 25];")],
    },
    Doctored {
        what: "bytes as text",
        changes: &[Change(
            PUTS,
            "
    payloads::put_gh(out, 6, r);
",
            "
    payloads::put_gh(out, 6, r);
    let mark = b\"GH\";
",
        )],
        told: &[(PUTS, "let mark = b\"GH\";")],
    },
];
