//! The program `listing` on saves, old ones among them, sound and damaged: it prints what document 01 says.

use compare::damage::{DAMAGES, Sound};
use compare::engine::Study;
use compare::engine::block::{Material, Pole, double};
use compare::{Random, report, save, sound, top};
use std::io::Write;
use std::process::{Command, Stdio};

const MOST_BYTES: usize = 24_576;
const DAMAGED: usize = 400;

/// What the program prints where these bytes are its standard input.
fn listed(bytes: &[u8]) -> String {
    let program = top().join("target/bin/listing");
    assert!(
        program.exists(),
        "{} is not there: `make compare` builds it",
        program.display()
    );
    let mut child = Command::new(program)
        .stdin(Stdio::piped())
        .stdout(Stdio::piped())
        .spawn()
        .expect("the program starts");
    let mut input = child.stdin.take().unwrap();
    let ran = std::thread::scope(|scope| {
        // It may end before it has read everything.
        scope.spawn(move || drop(input.write_all(bytes)));
        child.wait_with_output().unwrap()
    });
    assert!(ran.status.success(), "{}", ran.status);
    String::from_utf8(ran.stdout).unwrap()
}

fn refused(number: u32) -> String {
    format!("refused {number}\n")
}

/// Document 01's paragraph on the program.
fn expected(bytes: &[u8]) -> String {
    if bytes.len() > MOST_BYTES {
        return refused(4);
    }
    match save::read(bytes) {
        Err(number) => refused(number),
        Ok(study) => lines(&study),
    }
}

fn lines(study: &Study) -> String {
    let record = study.record().unwrap();
    let (n, [nx, ny, nz]) = (record.cells(), record.sizes);
    if n > 64 || record.pole_slots > 1 {
        return refused(4);
    }
    let (steps, materials) = (record.steps, record.material_count);
    let mut text = format!("study {nx} {ny} {nz} steps {steps} materials {materials}\n");
    let hex = |x: f64| format!(" {:016X}", u64::from_le_bytes(double(x)));
    for cell in 0..n {
        let (i, j, k) = (cell % nx, cell / nx % ny, cell / (nx * ny));
        text += &format!("{i} {j} {k}");
        for store in [&study.e, &study.h] {
            let numbers = (0..3).map(|component| store[component * n + cell]);
            text.extend(numbers.map(hex));
        }
        text.push('\n');
    }
    text
}

fn fresh(sizes: [usize; 3], pole_slots: usize) -> Study {
    let mut study = Study::lent(sizes, pole_slots);
    assert_eq!(study.open(sizes, pole_slots, 0, [1.0; 4]), 0);
    study
}

/// Lists the bytes; the program's answer is the one that is due, and these lines.
fn lists(bytes: &[u8], text: &str) {
    assert_eq!(expected(bytes), text);
    assert_eq!(listed(bytes), text);
}

/// Document 01's own example, and one byte less and more.
#[test]
fn the_small_save() {
    let bytes = save::write(&fresh([1, 1, 1], 0));
    assert_eq!(bytes.len(), 1_389);
    let old = save::old(&bytes);
    assert_eq!(old.len(), 1_388);
    let text = "\
study 1 1 1 steps 0 materials 1
0 0 0 0000000000000000 0000000000000000 0000000000000000 0000000000000000 0000000000000000 0000000000000000
";
    for bytes in [bytes, old] {
        lists(&bytes, text);
        lists(&bytes[..bytes.len() - 1], "refused 13\n");
        lists(&[&bytes[..], &[0]].concat(), "refused 16\n");
    }
    lists(&[], "refused 13\n");
}

fn material(pole: Pole) -> Material {
    Material {
        eps_inf: 3.0,
        sigma: f64::NAN,
        mu_r: 1.0,
        pole_count: 1,
        poles: vec![pole],
    }
}

/// Two cells, a material with a pole, and every kind of number in the fields.
#[test]
fn two_cells() {
    let mut study = fresh([1, 2, 1], 1);
    let material = material(Pole {
        tag: 2,
        numbers: [1e11, 1e10, 0.0],
    });
    assert_eq!(study.add_material(&material.write(), &mut [0]), 0);
    assert_eq!(study.build_dispersion(), 0);
    assert_eq!(study.run(&[0.0; 12]), 0);
    study.e = vec![1.0, -0.0, f64::NAN, -2.5, f64::INFINITY, 5e-324];
    study.h = vec![-f64::NAN, 0.1, f64::NEG_INFINITY, f64::MAX, 0.0, -1.0];
    let text = "\
study 1 2 1 steps 12 materials 2
0 0 0 3FF0000000000000 7FF8000000000000 7FF0000000000000 7FF8000000000000 FFF0000000000000 0000000000000000
0 1 0 8000000000000000 C004000000000000 0000000000000001 3FB999999999999A 7FEFFFFFFFFFFFFF BFF0000000000000
";
    let bytes = save::write(&study);
    lists(&bytes, text);
    lists(&save::old(&bytes), text);
    study.put_constants(1);
    lists(&save::write(&study), text);
    study.put_constants(2);
    lists(&save::write(&study), "refused 15\n");
}

/// A save whose pole cannot be stepped is refused where ML stands: whole, with the old GH, with another mark behind ML,
/// and cut off there.
#[test]
fn poles_that_cannot_be_stepped() {
    let poles = [
        (3, [2.0, 0.0]),
        (2, [1e11, f64::INFINITY]),
        (3, [2.0, f64::NAN]),
    ];
    for (tag, [x, y]) in poles {
        let mut study = fresh([1, 2, 1], 1);
        let pole = |numbers| Pole { tag, numbers };
        assert_eq!(
            study.add_material(&material(pole([1.0, 1.0, 0.0])).write(), &mut [0]),
            0
        );
        assert!(!expected(&save::write(&study)).starts_with("refused"));
        study.put_material(1, material(pole([x, y, 0.0])));
        let bytes = save::write(&study);
        let behind = Sound::new(&study).end_of_library();
        let mut marked = bytes.clone();
        marked[behind] = b'X';
        for bytes in [&bytes[..], &save::old(&bytes), &marked, &bytes[..behind]] {
            lists(bytes, "refused 15\n");
        }
        lists(&bytes[..behind - 1], "refused 13\n");
    }
}

/// More than 64 cells or one slot come where 4 stands, after all that can be wrong with the bytes; more
/// than 24,576 bytes come first.
#[test]
fn limits() {
    for sizes in [[64, 1, 1], [4, 4, 4], [1, 1, 64]] {
        let bytes = save::write(&fresh(sizes, 1));
        assert!(!expected(&bytes).starts_with("refused"));
        assert_eq!(listed(&bytes), expected(&bytes));
    }
    let [many, slots] = [([5, 13, 1], 0), ([1, 1, 1], 2)].map(|(sizes, p)| fresh(sizes, p));
    for study in [many, slots] {
        let bytes = save::write(&study);
        lists(&bytes, "refused 4\n");
        lists(&bytes[..bytes.len() - 1], "refused 13\n");
        lists(&[&bytes[..], &[0]].concat(), "refused 16\n");
    }
    let mut long = save::write(&fresh([1, 1, 1], 0));
    long.resize(MOST_BYTES, 0);
    lists(&long, "refused 16\n");
    long.push(0);
    lists(&long, "refused 4\n");
    lists(&vec![0; MOST_BYTES], "refused 14\n");
    lists(&vec![0; MOST_BYTES + 1], "refused 4\n");
    lists(&vec![0; 1 << 20], "refused 4\n");
}

#[test]
fn damaged_saves() {
    let mut random = Random::new(2014);
    let mut refused = 0;
    let mut other = Sound::new(&fresh([1, 1, 1], 0));
    for _ in 0..DAMAGED {
        let sizes = [0; 3].map(|_| 1 + random.index(4));
        let study = sound::by_hand(&mut random, sizes);
        let save = Sound::any(&mut random, &study);
        let damage = DAMAGES[random.index(DAMAGES.len())];
        let bytes = save.damaged(&mut random, damage, &other);
        let text = listed(&bytes);
        assert_eq!(text, expected(&bytes), "{damage:?}");
        refused += usize::from(text.starts_with("refused"));
        other = save;
    }
    report(&format!(
        "listing: {DAMAGED} damaged saves, {refused} refused"
    ));
    assert!(refused > DAMAGED / 2 && refused < DAMAGED);
}
