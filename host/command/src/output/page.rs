//! The curve as one page without outside parts.

use crate::curve::Curve;
use crate::output::table::{cells, columns, digits, in_hertz};
use crate::text::shown;

const STYLE: &str = "\
body{font:16px/1.5 system-ui,sans-serif;color:#111;background:#fff;margin:0 auto;max-width:60rem;padding:1rem;overflow-wrap:anywhere}\
h1{font-size:1.4rem}h2{font-size:1.1rem;margin-top:2rem}\
.told{padding:.6rem .8rem;border-left:.3rem solid #555;background:#f2f2f2}\
.missing{border:.25rem solid #b00;background:#fee;color:#900;font-weight:bold;font-size:1.15rem}\
.warning{padding:.4rem .8rem;border-left:.3rem solid #b60;background:#fff4e5;margin:.4rem 0}\
.wide{overflow-x:auto}.wide svg{width:100%;min-width:38rem;height:auto}table{border-collapse:collapse}\
th,td{padding:.25rem .6rem;border-bottom:1px solid #ccc;text-align:right;white-space:nowrap}\
pre{overflow-x:auto;background:#f6f6f6;padding:.8rem;font-size:.85rem}\
@media print{body{max-width:none;padding:0}h2{break-after:avoid}.told,.warning,pre{background:none}pre{white-space:pre-wrap}\
.wide svg{min-width:0}table{font-size:8pt}th{white-space:normal}th,td{padding:.1rem .3rem}}";

/// What HTML takes for itself, written out, and what it has no place for, by its code.
fn escaped(text: &str) -> String {
    text.chars().fold(String::new(), |mut out, c| {
        match c {
            '&' => out.push_str("&amp;"),
            '<' => out.push_str("&lt;"),
            '>' => out.push_str("&gt;"),
            '"' => out.push_str("&quot;"),
            '\n' | '\r' | '\t' => out.push(c),
            _ => out.push_str(&shown(c)),
        }
        out
    })
}

fn table(names: &[String], rows: impl Iterator<Item = Vec<String>>) -> String {
    let line = |tag: &str, cells: &[String]| {
        let cells: String = cells.iter().map(|cell| format!("<{tag}>{}</{tag}>", escaped(cell))).collect();
        format!("<tr>{cells}</tr>")
    };
    let body: String = rows.map(|row| line("td", &row)).collect();
    format!("<div class=\"wide\"><table><thead>{}</thead><tbody>{body}</tbody></table></div>", line("th", names))
}

fn curve_table(curve: &Curve) -> String {
    table(&columns(curve), cells(curve).into_iter())
}

/// The sheet at each moisture: its permittivity at the gauge's frequencies, and what fills it where it is a mixture.
fn sheet_table(curve: &Curve) -> String {
    let mixed = curve.rows.iter().all(|row| row.sheet.shares.is_some());
    let shares: &[&str] = if mixed { &["fibre", "water", "air"] } else { &[] };
    let at = |&f: &f64| [format!("\u{3b5}\u{2032} at {}", in_hertz(f)), format!("\u{3b5}\u{2033} at {}", in_hertz(f))];
    let names: Vec<String> =
        ["moisture %"].iter().chain(shares).map(|name| name.to_string()).chain(curve.frequencies.iter().flat_map(at)).collect();
    let rows = curve.rows.iter().map(|row| {
        let parts = row.sheet.shares.map(|parts| [parts.fibre, parts.water, parts.air]);
        let eps = |&f: &f64| row.sheet.material.permittivity(f, curve.constants);
        let eps = curve.frequencies.iter().map(eps).flat_map(|eps| [eps.re, -eps.im]);
        let numbers = parts.into_iter().flatten().chain(eps).map(digits);
        [row.sheet.moisture.to_string()].into_iter().chain(numbers).collect()
    });
    table(&names, rows)
}

/// The page: what is told of the layer, warnings, picture, table, the sheet, every input.
pub fn html(curve: &Curve, picture: &str, input: &str, about: &[String]) -> String {
    let title = escaped(&curve.title);
    let told = if curve.layer_is_missing() { "told missing" } else { "told" };
    let warnings: String =
        curve.warnings.iter().map(|warning| format!("<p class=\"warning\">{}</p>\n", escaped(&warning.to_string()))).collect();
    let notes: String = curve.notes.iter().chain(about).map(|line| format!("<li>{}</li>\n", escaped(line))).collect();
    // the picture without its XML head stands in the page itself
    let drawn = picture.find("<svg").map_or("", |from| &picture[from..]);
    format!(
        "<!DOCTYPE html>\n<html lang=\"en\"><head><meta charset=\"utf-8\">\
         <meta name=\"viewport\" content=\"width=device-width,initial-scale=1\"><title>{title}</title><style>{STYLE}</style></head><body>\n\
         <h1>{title}</h1>\n<p class=\"{told}\">{}</p>\n{warnings}\
         <h2>Curve</h2>\n<div class=\"wide\">{drawn}</div>\n<h2>Table</h2>\n{}\n\
         <p>dB, degrees and energy are against the empty head; reflected is a part of the incident power.</p>\n\
         <h2>Sheet</h2>\n{}\n<h2>Computed from</h2>\n<ul>\n{notes}</ul>\n<pre>{}</pre>\n</body></html>\n",
        escaped(&curve.told()),
        curve_table(curve),
        sheet_table(curve),
        escaped(input),
    )
}
