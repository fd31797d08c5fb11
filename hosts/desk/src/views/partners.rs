//! The partners of a map: a sheet for a spreadsheet, and a list to print with boxes to tick.

use super::page::{self, escaped};
use crate::answer::{Answer, Found};
use crate::files;
use crate::output::MARK;
use crate::reader::table::field;
use crate::words::today;
use std::fmt::Write;
use std::path::Path;

/// So many cues stand on a printed page.
const PAGE_CUES: usize = 100;

/// More letters of two names do not fit a row of an upright page: it then lies on its side, with smaller letters.
const UPRIGHT_LETTERS: usize = 36;

/// The first row of the sheet.
pub const HEADING: &str = "Cue,Name,Partner,Partner's name\r\n";

/// The sheet: a heading, then number and name of each cue and of its partner.
pub fn sheet(answer: &Answer) -> String {
    let mut text = String::from(HEADING);
    for [cue, name, partner, partner_name] in rows(answer) {
        let _ = write!(text, "{cue},{},{partner},{}\r\n", field(&name), field(&partner_name));
    }
    text
}

/// Whether a file is such a sheet, of an earlier answer.
pub fn is_sheet(path: &Path) -> bool {
    files::read(path, HEADING.len() as u64).is_ok_and(|front| front == HEADING.as_bytes())
}

/// Number and name of each cue and of its partner; names are empty where there are none.
fn rows(answer: &Answer) -> Vec<[String; 4]> {
    let name = |sheet: usize, cue: usize| answer.sheets[sheet].name(cue).unwrap_or_default().to_string();
    let row = |(place, &image): (usize, &u8)| {
        let (cue, partner) = (place + 1, usize::from(image));
        [cue.to_string(), name(0, cue), partner.to_string(), name(1, partner)]
    };
    answer.images().iter().enumerate().map(row).collect()
}

/// The list to print: a page for each hundred cues, with title, date and number. Without partners it is the usual page.
pub fn page(answer: &Answer) -> String {
    let Some(Found::Map { .. }) = &answer.result else { return page::page(answer) };
    let rows = rows(answer);
    let pages = rows.len().div_ceil(PAGE_CUES);
    let is_wide = rows.iter().any(|[_, name, _, partner_name]| name.len() + partner_name.len() > UPRIGHT_LETTERS);
    let (size, class) = if is_wide { ("A4 landscape", " class=\"wide\"") } else { ("A4", "") };
    let title = format!("Partners: {} on {}", answer.sheets[0].path, answer.sheets[1].path);
    let mut body = String::new();
    for (place, rows) in rows.chunks(PAGE_CUES).enumerate() {
        let _ = write!(
            body,
            "<section{class}>\n<header><h1>{}</h1><p>{}</p></header>\n<p>{}</p>\n<ol>\n",
            escaped(&title),
            today(),
            escaped(&answer.says)
        );
        for [cue, name, partner, partner_name] in rows {
            let _ = writeln!(
                body,
                "<li><i></i><b>{cue}</b> <span>{}</span> → <b>{partner}</b> <span>{}</span>",
                escaped(name),
                escaped(partner_name)
            );
        }
        let _ = write!(body, "</ol>\n<footer>Page {} of {pages}</footer>\n</section>\n", place + 1);
    }
    format!(
        "<!DOCTYPE html>\n<html lang=\"en\">\n<meta charset=\"utf-8\">\n{MARK}\n<meta name=\"viewport\" \
         content=\"width=device-width\">\n<title>{}</title>\n<style>\n{}</style>\n{body}</html>\n",
        escaped(&title),
        STYLE.replace("SIZE", size)
    )
}

const STYLE: &str = "\
:root{color-scheme:light dark}
body{font:15px/1.35 system-ui,sans-serif;margin:1.5rem}
section{max-width:60rem;margin:0 auto 2rem}
header{display:flex;flex-wrap:wrap;gap:0 2rem;justify-content:space-between;align-items:baseline;border-bottom:2px solid}
h1{font-size:1.2rem;margin:0;overflow-wrap:anywhere}
header p{margin:0}
ol{columns:18rem;list-style:none;padding:0}
li{break-inside:avoid;padding:.12rem 0;overflow-wrap:anywhere}
i{display:inline-block;width:.85em;height:.85em;border:1.5px solid;margin-right:.6em;vertical-align:-.1em}
footer{text-align:right;border-top:1px solid}
@media print{
@page{size:SIZE;margin:10mm}
body{margin:0;font-size:9pt}
section{margin:0;max-width:none;break-after:page}
section:last-of-type{break-after:auto}
h1{font-size:10pt}
p{margin:1mm 0}
ol{columns:2;column-gap:6mm;margin:2mm 0}
li{padding:0}
.wide ol{font-size:6.6pt;line-height:1.2}
}
";
