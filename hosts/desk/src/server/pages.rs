//! The files of the page, which are part of the program.

use super::http::Reply;

const HTML: &str = "text/html; charset=utf-8";
const STYLE: &str = "text/css; charset=utf-8";
const SCRIPT: &str = "text/javascript; charset=utf-8";
const PICTURE: &str = "image/svg+xml";

/// Each by its path after the token.
const FILES: [(&str, &str, &str); 15] = [
    ("", HTML, include_str!("../page/index.html")),
    ("page.css", STYLE, include_str!("../page/page.css")),
    ("print.css", STYLE, include_str!("../page/print.css")),
    ("icon.svg", PICTURE, include_str!("../page/icon.svg")),
    ("main.js", SCRIPT, include_str!("../page/main.js")),
    ("server.js", SCRIPT, include_str!("../page/server.js")),
    ("state.js", SCRIPT, include_str!("../page/state.js")),
    ("elements.js", SCRIPT, include_str!("../page/elements.js")),
    ("sheets.js", SCRIPT, include_str!("../page/sheets.js")),
    ("grid.js", SCRIPT, include_str!("../page/grid.js")),
    ("faults.js", SCRIPT, include_str!("../page/faults.js")),
    ("answer.js", SCRIPT, include_str!("../page/answer.js")),
    ("tables.js", SCRIPT, include_str!("../page/tables.js")),
    ("rigs.js", SCRIPT, include_str!("../page/rigs.js")),
    ("more.js", SCRIPT, include_str!("../page/more.js")),
];

/// A file of the page.
pub fn page(path: &str) -> Option<Reply> {
    let (_, kind, text) = FILES.iter().find(|(name, _, _)| *name == path)?;
    Some(Reply::new(kind, *text))
}
