//! The save's writer puts each number straight to its place, with no byte array between (document 02, S-6). No
//! contract can say that, since it speaks of the bytes at the end alone: it is read off the source.
//!
//! Every function that `cichowiej_save` is made of is looked at, found call by call through `use` lines and paths (of a
//! method every one of its name); and the types and constants of every file that theirs name. What is allowed stands in
//! rules.rs.

mod code;
mod doctored;
mod rules;
mod tree;

use compare::report;
use rules::{Finding, findings};
use std::collections::BTreeSet;
use tree::{Texts, Tree, texts};

const SAVE: [&str; 3] = ["api_c", "saving", "cichowiej_save"];

/// The files that the writer's functions stand in, below crates/.
const WRITER: [&str; 22] = [
    "api/src/saving.rt",
    "api_c/src/saving.rt",
    "block/src/lib.rt",
    "calls/src/blocks.rt",
    "codec/src/floats.rt",
    "codec/src/frame.rt",
    "codec/src/numbers.rt",
    "codec/src/stores.rt",
    "cpml/src/memory.rt",
    "dispersion/src/lib.rt",
    "grid/src/fault.rt",
    "grid/src/stores.rt",
    "heads/src/lib.rt",
    "on_block/src/saving.rt",
    "payloads/src/lib.rt",
    "puts/src/lib.rt",
    "reads/src/entries.rt",
    "reads/src/lib.rt",
    "refusals/src/lib.rt",
    "root/src/vacuum.rt",
    "saves/src/lib.rt",
    "shapes/src/lib.rt",
];

fn found(texts: &Texts) -> Vec<Finding> {
    let tree = Tree::of(texts);
    findings(&tree, &tree.reached(SAVE))
}

fn all(found: &[Finding]) -> String {
    let lines: Vec<String> = found.iter().map(Finding::to_string).collect();
    lines.join("\n")
}

#[test]
fn each_number_goes_straight_to_its_place() {
    let found = found(&texts());
    assert!(found.is_empty(), "{}", all(&found));
}

/// Where the walk loses its way, it finds fewer; where the writer has a file more, it is to be named here.
#[test]
fn the_writer_is_these_files() {
    let tree = Tree::of(&texts());
    let reached = tree.reached(SAVE);
    let files: BTreeSet<&str> = reached
        .iter()
        .map(|one| one.path.strip_prefix("crates/").unwrap())
        .collect();
    assert_eq!(
        files,
        BTreeSet::from(WRITER),
        "the writer's files, and those named here"
    );
    let functions = reached.len();
    let files = files.len();
    report(&format!(
        "source: the save's writer is {functions} functions in {files} files, with no bytes between"
    ));
}

#[test]
fn each_kind_of_bytes_between_is_told() {
    let texts = texts();
    for doctored in doctored::ALL {
        let texts = doctored.apply(&texts);
        let found = found(&texts);
        let line = |finding: &Finding| texts[&finding.path].lines().nth(finding.line - 1).unwrap();
        let told: BTreeSet<(&str, &str)> = found
            .iter()
            .map(|finding| (finding.path.as_str(), line(finding).trim()))
            .collect();
        let wanted = doctored.told.iter().copied().collect();
        assert_eq!(told, wanted, "{}:\n{}", doctored.what, all(&found));
    }
    let kinds = doctored::ALL.len();
    report(&format!(
        "source: {kinds} writers with bytes between are told"
    ));
}
