//! Every C function on a study promises that the call it makes is one of demand 3: its contract has the clause `honest`. The C functions stand in `api_c`; each has the
//! name and the contract of the function of `api` that it calls. The crates `preparing`, `stepping` and `program` lean on the clause of those of `api` that they call;
//! of the others this alone tells that it is there.

use std::fs;
use std::path::{Path, PathBuf};

fn crates() -> PathBuf {
    Path::new(env!("CARGO_MANIFEST_DIR")).join("../../crates")
}

/// The texts of a crate's source, folders in it not counted.
fn sources(name: &str) -> Vec<String> {
    let files = fs::read_dir(crates().join(name).join("src"))
        .unwrap()
        .map(|entry| entry.unwrap().path());
    let mut files: Vec<PathBuf> = files
        .filter(|path| path.extension().is_some_and(|ending| ending == "rt"))
        .collect();
    files.sort();
    files
        .iter()
        .map(|path| fs::read_to_string(path).unwrap())
        .collect()
}

/// The functions of a crate after whose lead their name comes: name, and all between it and its body.
fn functions(of: &str, lead: &str) -> Vec<(String, String)> {
    let texts = sources(of);
    let parts = texts.iter().flat_map(|text| text.split(lead).skip(1));
    let function = |part: &str| {
        let name: String = part
            .chars()
            .take_while(|c| c.is_alphanumeric() || *c == '_')
            .collect();
        // the body begins with a brace at the line's beginning, or ends the line of a short one
        let end = part
            .find("\n{")
            .unwrap_or_else(|| panic!("{name} has no contract"));
        (name, part[..end].to_string())
    };
    parts.map(function).collect()
}

/// The exported functions.
fn exported() -> Vec<(String, String)> {
    functions("api_c", "pub extern \"C\" fn ")
}

/// The first thing that a function on a study is lent is its block.
fn is_on_study(head: &str) -> bool {
    let lent = head.split_once('(').unwrap().1.trim_start();
    ["b: &[u8]", "b: &mut [u8]"]
        .iter()
        .any(|first| lent.starts_with(first))
}

fn has_clause(head: &str) -> bool {
    head.lines()
        .any(|line| line.trim_start().starts_with("ensures honest {"))
}

#[test]
fn every_function_on_a_study_has_the_clause() {
    let header =
        fs::read_to_string(Path::new(env!("CARGO_MANIFEST_DIR")).join("../../include/cichowiej.h"))
            .unwrap();
    let functions = exported();
    let on_block = header
        .matches("uint8_t *block, size_t block_length,")
        .count();
    let on_study: Vec<&(String, String)> = functions
        .iter()
        .filter(|(_, head)| is_on_study(head))
        .collect();
    assert_eq!(
        on_study.len(),
        on_block,
        "the header declares other functions on a block"
    );
    for (name, head) in &functions {
        assert_eq!(has_clause(head), is_on_study(head), "{name}");
    }
}

/// Parameters, answer and clauses, however they are laid out.
fn laid_out(head: &str) -> String {
    let text: String = head.split_whitespace().collect();
    text.replace(",)", ")")
}

/// What the crates above `api` lean on is what a C caller is promised.
#[test]
fn a_c_function_has_the_contract_of_the_one_it_calls() {
    let called: Vec<(String, String)> = functions("api", "pub fn cichowiej_")
        .into_iter()
        .map(|(name, head)| (format!("cichowiej_{name}"), format!("cichowiej_{head}")))
        .collect();
    let of_c = exported();
    assert_eq!(
        of_c.len(),
        called.len(),
        "functions of api, and C functions"
    );
    for (name, head) in &of_c {
        let (_, own) = called
            .iter()
            .find(|(other, _)| other == name)
            .unwrap_or_else(|| panic!("api has no {name}"));
        assert_eq!(laid_out(head), laid_out(own), "{name}");
    }
}

/// Those that a program's crates call, by whose clauses its functions are proved: one of each kind of call, and more.
#[test]
fn the_program_calls_one_of_each_kind() {
    let program: String = ["preparing", "stepping", "program"]
        .iter()
        .flat_map(|name| sources(name))
        .collect();
    let called: Vec<String> = exported()
        .into_iter()
        .map(|(name, _)| name)
        .filter(|name| program.contains(&format!("::{name}(")))
        .collect();
    let kinds = [
        "open",
        "put_box",
        "add_material",
        "build_dispersion",
        "set_periodic",
    ];
    let more = [
        "set_boundary_lossy",
        "set_boundary_cpml",
        "slab_z",
        "step",
        "run",
        "reset_fields",
        "total_energy",
        "save",
        "rewind",
    ];
    for name in kinds.iter().chain(&more) {
        assert!(called.contains(&format!("cichowiej_{name}")), "{name}");
    }
}

/// The test can tell: a function whose clause is gone, or goes by another name, is none.
#[test]
fn a_clause_that_is_gone_is_seen() {
    let (_, head) = exported()
        .into_iter()
        .find(|(name, _)| name == "cichowiej_run")
        .unwrap();
    assert!(has_clause(&head) && is_on_study(&head));
    assert!(
        !has_clause(&head.replace("ensures honest", "ensures other"))
            && !has_clause(&head.replace("ensures honest", "// ensures honest"))
    );
}
