//! Table, picture and page: what a reader sees of a curve, whatever its head holds.

mod common;

use cichowiej::{Constants, Layer, Material};
use cichowiej_command::curve::plan::WetSheet;
use cichowiej_command::curve::warnings::{Kind, Warning};
use cichowiej_command::curve::{Curve, Row, Value};
use cichowiej_command::output::{page, picture, table};
use common::{Folder, HEAD, with};
use std::collections::HashSet;
use std::fs;
use std::process::Command;

const Z: [bool; 3] = [false, false, true];

/// A curve with so many frequencies, without a study.
fn drawn(frequencies: usize) -> Curve {
    let value = |f: usize, moisture: f64| Value { db: -moisture * f as f64, degrees: -moisture - f as f64, reflected: Some(0.5) };
    let row = |moisture: f64| Row {
        sheet: WetSheet { moisture, material: Material::plain(2.0), shares: None },
        values: (1..=frequencies).map(|f| value(f, moisture)).collect(),
        energy: 0.5,
    };
    Curve {
        title: "A test".into(),
        frequencies: (1..=frequencies).map(|f| f as f64 * 1.001e9).collect(),
        rows: [2.0, 4.0, 6.0].map(row).to_vec(),
        layer: Some(Layer { asked: Z, active: Z }),
        constants: Constants::Old,
        warnings: Vec::new(),
        notes: Vec::new(),
    }
}

/// An element of a picture, as its one line has it, with the text that follows if it is one.
struct Element {
    line: String,
    words: String,
}

impl Element {
    fn attribute(&self, name: &str) -> Option<&str> {
        let (_, rest) = self.line.split_once(&format!(" {name}=\""))?;
        rest.split_once('"').map(|(value, _)| value)
    }

    fn number(&self, name: &str) -> f64 {
        self.attribute(name).unwrap_or_else(|| panic!("{name} in {}", self.line)).parse().unwrap()
    }

    fn is(&self, tag: &str) -> bool {
        self.line.starts_with(&format!("<{tag} "))
    }

    /// Its corners, or its middle.
    fn places(&self) -> Vec<(f64, f64)> {
        let pair = |(x, y): (&str, &str)| (x.parse().unwrap(), y.parse().unwrap());
        match self.attribute("points") {
            Some(points) => points.split_whitespace().map(|point| pair(point.split_once(',').unwrap())).collect(),
            None => [("x", "y"), ("cx", "cy"), ("x1", "y1"), ("x2", "y2")]
                .iter()
                .filter_map(|(x, y)| Some(pair((self.attribute(x)?, self.attribute(y)?))))
                .collect(),
        }
    }
}

fn elements(svg: &str) -> Vec<Element> {
    let starts = svg.split_inclusive('\n').filter(|line| !line.starts_with("</")).fold(Vec::new(), |mut all, line| {
        match all.last_mut() {
            Some(Element { words, .. }) if !line.starts_with('<') => words.push_str(line.trim_end()),
            _ => all.push(Element { line: line.trim_end().into(), words: String::new() }),
        }
        all
    });
    starts.into_iter().skip(1).collect()
}

fn size(svg: &str) -> (f64, f64) {
    let whole = Element { line: svg.lines().next().unwrap().into(), words: String::new() };
    (whole.number("width"), whole.number("height"))
}

/// What can be told of the characters of an XML text: none that it forbids, every & an entity, every < a tag, each tag closed in its turn.
fn check_xml(text: &str) {
    let bad = |c: char| (c < ' ' && !"\n\r\t".contains(c)) || c == '\u{fffe}' || c == '\u{ffff}';
    assert_eq!(text.chars().find(|c| bad(*c)), None, "a character that XML forbids");
    for rest in text.split('&').skip(1) {
        assert!(["amp;", "lt;", "gt;", "quot;", "apos;"].iter().any(|entity| rest.starts_with(entity)), "a bare &: {rest:.40}");
    }
    let mut open = Vec::new();
    for rest in text.split('<').skip(1) {
        let (tag, behind) = rest.split_once('>').unwrap_or_else(|| panic!("a bare <: {rest:.40}"));
        assert!(!behind.contains('>') && tag.matches('"').count() % 2 == 0, "{rest:.80}");
        let name = tag.split_whitespace().next().unwrap().to_string();
        match name.strip_prefix('/') {
            Some(name) => assert_eq!(open.pop().as_deref(), Some(name)),
            None if tag.ends_with('/') => (),
            None => open.push(name),
        }
    }
    assert!(open.is_empty(), "{open:?}");
}

/// The table's lines, from its names on.
fn rows(out: &str) -> Vec<&str> {
    out.lines().skip_while(|line| !line.contains("moisture %")).take_while(|line| !line.is_empty()).collect()
}

/// A sheet of 30 mm that is a wavelength and more: from the second moisture on its phase is beyond -180. The head has the wettest first.
#[test]
fn the_phase_goes_on_down_beyond_half_a_turn() {
    let (before, _) = HEAD.split_once("[sheet]").unwrap();
    let wet = [(15, 5.0), (12, 4.2), (6, 2.6), (9, 3.4), (3, 1.8)].map(|(percent, eps)| {
        format!("[[sheet.moisture]]\npercent = {percent}\nmaterial = {{ eps_inf = {eps}, sigma = 0.1 }}\n")
    });
    let folder = Folder::new(&format!("{before}[sheet]\ncells = {{ z = [30, 60] }}\n{}", wet.concat()));
    let (status, out, err) = folder.curve(&["--csv", "c.csv"]);
    assert_eq!((status, err.as_str()), (0, ""));
    let csv = fs::read_to_string(folder.path("c.csv")).unwrap();
    let lines = csv.lines().filter(|line| !line.starts_with('#')).skip(1);
    let mut numbers: Vec<Vec<f64>> = lines.map(|line| line.split(',').map(|cell| cell.parse().unwrap()).collect()).collect();
    assert_eq!(numbers.iter().map(|row| row[0]).collect::<Vec<f64>>(), [15.0, 12.0, 6.0, 9.0, 3.0], "the head's order");
    numbers.sort_by(|a, b| a[0].total_cmp(&b[0]));
    // dB, degrees and the reflected part of each frequency
    for column in [2, 5] {
        let phases: Vec<f64> = numbers.iter().map(|row| row[column]).collect();
        assert!((-180.0..0.0).contains(&phases[0]) && phases[4] < -300.0, "{phases:?}");
        assert!(phases.windows(2).all(|pair| pair[1] < pair[0] && pair[0] - pair[1] < 180.0), "{phases:?}");
    }
    assert!(rows(&out)[1].contains(&format!(" {:.2} ", numbers[4][2])), "{out}");
}

/// The legend's marks, each moved to one place.
fn marks(svg: &str, frequencies: usize) -> Vec<String> {
    let all = elements(svg);
    let names = all.iter().position(|element| element.words.ends_with("Hz")).unwrap();
    let first = all[..names].iter().rposition(|element| element.is("polyline") && element.places().len() == 2).unwrap();
    let groups = all[first..].split_inclusive(|element| element.is("text")).take(frequencies);
    let moved = |group: &[Element]| {
        let (left, top) = group[0].places()[0];
        let place = |(x, y): (f64, f64)| format!(" {} {}", x - left, y - top);
        let one = |element: &Element| {
            let looks = ["fill", "stroke", "r"].map(|name| element.attribute(name).unwrap_or("").to_string()).join(" ");
            looks + &element.places().into_iter().map(place).collect::<String>() + "\n"
        };
        group.iter().filter(|element| !element.is("text")).map(one).collect()
    };
    groups.map(moved).collect()
}

#[test]
fn frequencies_are_told_apart() {
    let svg = picture::svg(&drawn(24)).unwrap();
    let marks_of_24 = marks(&svg, 24);
    assert_eq!(marks_of_24.iter().collect::<HashSet<_>>().len(), 24, "{marks_of_24:?}");
    assert!(!svg.contains("come again"));
    // in the panels as in the legend: a disc and a triangle first, the darkest first
    let panel = elements(&svg);
    assert_eq!(panel.iter().filter(|element| element.is("circle") && element.attribute("fill") == Some("#000000")).count(), 7);
    assert!(marks_of_24[0].contains("#000000") && marks_of_24[1].contains("#5A5A5A") && marks_of_24[2].contains("#969696"));
    let many = picture::svg(&drawn(60)).unwrap();
    let alike = marks(&many, 60).iter().collect::<HashSet<_>>().len() < 60;
    assert!(alike && many.contains("marks: from frequency") && many.contains("come again"), "never two alike without a word");
}

/// Nothing begins outside the picture, and no text reaches beyond its right edge, at three fifths of the font's size for a character.
fn check_inside(svg: &str) {
    let (width, height) = size(svg);
    for element in elements(svg) {
        let inside = |&(x, y): &(f64, f64)| (0.0..=width).contains(&x) && (0.0..=height).contains(&y);
        assert!(element.places().iter().all(inside), "{} on {width} x {height}", element.line);
        if element.attribute("text-anchor") == Some("start") {
            let end = element.number("x") + 0.6 * element.number("font-size") * element.words.chars().count() as f64;
            assert!(end <= width, "{} ends at {end}", element.words);
        }
    }
}

/// The heights of the vertical lines of the mesh, which are the panels'.
fn panels(svg: &str) -> HashSet<i64> {
    let all = elements(svg);
    let mesh = all.iter().filter(|element| element.attribute("stroke") == Some("#D7D7D7"));
    mesh.filter(|line| line.number("x1") == line.number("x2"))
        .map(|line| (line.number("y1") - line.number("y2")) as i64)
        .collect()
}

#[test]
fn a_long_legend_stays_on_the_page() {
    let few = panels(&picture::svg(&drawn(2)).unwrap());
    assert!(!few.is_empty() && few.iter().all(|height| *height > 250), "{few:?}");
    for frequencies in [8, 12, 24, 60] {
        let svg = picture::svg(&drawn(frequencies)).unwrap();
        check_inside(&svg);
        check_xml(&svg);
        assert_eq!(panels(&svg), few, "{frequencies}");
    }
}

#[test]
fn a_long_title_and_many_warnings_leave_the_panels_their_size() {
    let few = panels(&picture::svg(&drawn(2)).unwrap());
    let titles = ["a word or two ".repeat(22), "W".repeat(300), "ż\u{4e2d}".repeat(150), "word ".repeat(100_000)];
    for title in titles {
        let text = |i| format!("{i}: take {}", "something else ".repeat(20));
        let warnings = (0..30).map(|i| Warning { kind: Kind::Coarse, text: text(i), allowed: false }).collect();
        let svg = picture::svg(&Curve { title: title.clone(), warnings, ..drawn(12) }).unwrap();
        check_inside(&svg);
        assert_eq!(panels(&svg), few, "{title:.40}");
        let words: String = elements(&svg).iter().map(|element| element.words.clone() + " ").collect();
        let bare = |text: &str| text.split_whitespace().collect::<String>();
        let (words, title) = (bare(&words), bare(&title));
        assert!(words.starts_with(&title) || words.contains("wordword..absorbing"), "{words:.400}");
        assert!(words.contains("29:takesomethingelse"));
    }
    let wide = picture::svg(&Curve { title: "W".repeat(300), ..drawn(2) }).unwrap();
    let title = elements(&wide).into_iter().find(|element| element.is("text")).unwrap();
    assert!(title.words.len() as f64 * title.number("font-size") <= 900.0 - 24.0, "W is as wide as its font's size");
}

/// White on white is seen by nobody.
#[test]
fn nothing_is_drawn_in_white_but_the_ground_and_the_text_in_its_band() {
    let missing = Curve { layer: Some(Layer { asked: Z, active: [false; 3] }), ..drawn(3) };
    for (curve, banded) in [(drawn(24), false), (missing, true)] {
        let svg = picture::svg(&curve).unwrap();
        let all = elements(&svg);
        let white = |name: &str, element: &Element| element.attribute(name) == Some("#FFFFFF");
        let seen: Vec<&Element> = all.iter().filter(|element| white("stroke", element) || white("fill", element)).collect();
        assert!(seen[0].is("rect") && (seen[0].number("width"), seen[0].number("height")) == size(&svg));
        assert!(seen[1..].iter().all(|element| element.is("text")), "{} white elements", seen.len());
        assert_eq!(seen.len() > 1, banded);
    }
}

/// A line goes from the driest to the wettest, in whatever order the head has them.
#[test]
fn a_line_runs_by_rising_moisture() {
    let mut curve = drawn(1);
    curve.rows.swap(0, 2);
    curve.rows.swap(0, 1);
    let all = elements(&picture::svg(&curve).unwrap());
    let lines: Vec<_> = all.iter().filter(|element| element.is("polyline") && element.places().len() == 3).collect();
    assert_eq!(lines.len(), 2);
    for line in lines {
        assert!(line.places().windows(2).all(|pair| pair[0].0 < pair[1].0), "{}", line.line);
    }
}

/// What TOML lets into a title by its escapes.
#[test]
fn control_characters_are_shown_by_their_codes() {
    let cases = [
        (r#""one\u0001two\u001B[2J\uFFFE\uFFFF""#, "one\\u{1}two\\u{1b}[2J\\u{fffe}\\u{ffff}"),
        ("\"\"\"one\ntwo\"\"\"", "one two"),
        (r#""one\r\n\ttwo""#, "one two"),
    ];
    for (title, seen) in cases {
        let folder = with("\"A test\"", title);
        let (status, _, err) = folder.curve(&["--svg", "c.svg", "--html", "c.html"]);
        assert_eq!((status, err.as_str()), (0, ""));
        let [svg, page] = ["c.svg", "c.html"].map(|file| fs::read_to_string(folder.path(file)).unwrap());
        check_xml(&svg);
        assert_eq!(elements(&svg)[1].words, seen);
        let (_, heading) = page.split_once("<h1>").unwrap();
        let (heading, _) = heading.split_once("</h1>").unwrap();
        assert_eq!(heading.split_whitespace().collect::<Vec<_>>().join(" "), seen);
        let (_, drawn) = page.split_once("<svg").unwrap();
        check_xml(&format!("<svg{}</svg>", drawn.split_once("</svg>").unwrap().0));
        assert!(page.chars().all(|c| "\n\r\t".contains(c) || (!c.is_control() && c != '\u{fffe}' && c != '\u{ffff}')));
    }
}

/// The picture of a title with a control character, read by another program.
#[test]
fn xmllint_reads_the_picture() {
    let folder = with("\"A test\"", r#""<&\u0001]]>\u007F\uFFFF""#);
    assert_eq!(folder.curve(&["--svg", "c.svg"]).0, 0);
    match Command::new("xmllint").arg("--noout").arg(folder.path("c.svg")).output() {
        Ok(out) => assert!(out.status.success(), "{}", String::from_utf8_lossy(&out.stderr)),
        Err(_) => println!("NOT TRIED: no xmllint here"),
    }
}

/// What a page or a picture could take for its own.
const NAME: &str = r#"<script>alert(1)</script>&amp;"]]>"#;
const ESCAPED: &str = "&lt;script&gt;alert(1)&lt;/script&gt;&amp;amp;&quot;]]&gt;";

/// The example with that for its title, the name of a material, and the two sources of its paper. No cell has the material, but its wavelength is so
/// short that a warning names it.
fn with_names() -> String {
    let example = fs::read_to_string(concat!(env!("CARGO_MANIFEST_DIR"), "/../../examples/office-80.toml")).unwrap();
    let line = |line: &str| match line.split_once(" = ") {
        Some((key @ ("title" | "source"), _)) => format!("{key} = '{NAME}'\n"),
        Some(("steps", _)) => "steps = 400\n".into(),
        _ => format!("{line}\n"),
    };
    let head: String = example.lines().map(line).collect();
    head.replace("[planes]", &format!("[materials.'{NAME}']\neps_inf = 1e6\n\n[planes]"))
}

/// The picture and the page of a head in a file whose name has a tag in it too.
fn named(head: &str) -> [String; 2] {
    let folder = Folder::new("");
    fs::write(folder.path("head <b>&.toml"), head).unwrap();
    let out = folder.command_of("head <b>&.toml").args(["--svg", "c.svg", "--html", "c.html"]).output().unwrap();
    assert!(out.status.success(), "{}", String::from_utf8_lossy(&out.stderr));
    let files = ["c.svg", "c.html"].map(|file| fs::read_to_string(folder.path(file)).unwrap());
    check_xml(&files[0]);
    for text in &files {
        let raw = ["<script", "</script", "<b>", "]]>", "&amp;\"", "&.toml"].into_iter().find(|raw| text.contains(raw));
        assert_eq!(raw, None);
    }
    files
}

#[test]
fn names_are_never_taken_for_tags() {
    let head = with_names();
    let [svg, page] = named(&head);
    assert_eq!(elements(&svg)[1].words, ESCAPED);
    assert!(svg.contains("warning (coarse): ") && svg.contains("in material &quot;&lt;script&gt;"), "{svg}");
    assert!(page.contains(&format!("<title>{ESCAPED}</title>")) && page.contains(&format!("<h1>{ESCAPED}</h1>")));
    assert!(
        page.contains(&format!("<li>fibre: {ESCAPED}</li>")) && page.contains(&format!("<li>water at 20 °C: {ESCAPED}</li>"))
    );
    assert!(page.contains(&format!("[materials.'{ESCAPED}']")) && page.contains("<li>input head &lt;b&gt;&amp;.toml, SHA-256"));
    // without a title, the file's name is in it
    let untitled: String = head.split_inclusive('\n').filter(|line| !line.starts_with("title")).collect();
    let [svg, page] = named(&untitled);
    assert_eq!(elements(&svg)[1].words, "Curve of head &lt;b&gt;&amp;.toml");
    assert!(page.contains("<h1>Curve of head &lt;b&gt;&amp;.toml</h1>"));
}

/// A reflected part of a few parts in a million is still one, in table and page; moistures stand as they are written.
#[test]
fn small_numbers_keep_their_digits() {
    let mut curve = drawn(1);
    curve.rows[0].sheet.moisture = 7.5;
    curve.rows[0].values[0] = Value { db: -1.234567e-7, degrees: -164.2, reflected: Some(0.0000123) };
    curve.rows[1].energy = -1.2345678e-300;
    curve.rows[2].energy = f64::NAN;
    let (text, page) = (table::text(&curve), page::html(&curve, "", "", &[]));
    let cells = |line: &str| line.split_whitespace().map(String::from).collect::<Vec<_>>();
    let lines = rows(&text);
    assert_eq!(cells(lines[1]), ["7.5", "-1.2346e-7", "-164.20", "1.2300e-5", "0.50000"]);
    assert_eq!(cells(lines[2]), ["4", "-4.0000", "-5.0000", "0.50000", "-1.2346e-300"]);
    assert_eq!(cells(lines[3]).last().unwrap(), "NaN");
    let widths: HashSet<usize> = lines.iter().map(|line| line.chars().count()).collect();
    assert_eq!(widths.len(), 1, "{text}");
    assert!(page.contains("<td>7.5</td><td>-1.2346e-7</td><td>-164.20</td><td>1.2300e-5</td><td>0.50000</td>"), "{page}");
    assert!(page.contains("<td>7.5</td><td>2.0000</td><td>0</td>"), "the sheet's table: {page}");
}
