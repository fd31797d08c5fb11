//! Pages: tables as coloured grids, partner lists, classes, and what is wrong with a sheet, marked in it. A page needs no other file and
//! prints well.

use crate::answer::{Answer, Cells, Class, Found, Misfit, Refusal, Rig, RigOutcome, Role, Sheet};
use crate::output::MARK;
use crate::reader::grid::letters;
use crate::status::Status;
use crate::views::text::{chosen, refused, rig_in_words, Manner};
use crate::words::count;
use std::fmt::Write;

/// More columns than this do not fit a sheet of paper: the grid is printed in blocks.
const MOST_COLUMNS: usize = 60;

/// An eye tells so many colours apart.
const MOST_COLOURS: usize = 12;

/// More rows than this are printed on pages of their own.
const PAGE_ROWS: usize = 12;

const PLAIN: Manner = Manner { quiet: true, colours: false };

/// The page of an answer, whatever it is.
pub fn page(answer: &Answer) -> String {
    let title = match answer.command {
        "classes" => "Which sheets are the same",
        "cut" => "A part of a table",
        "rigs" => "Which rigs take the show",
        _ => "Moving the show",
    };
    let mut sentences = chosen(answer);
    if let Some(Found::Misfit(misfit)) = &answer.result {
        sentences.extend(misfit.says.iter().cloned());
    }
    let mut body: String = sentences.iter().map(|sentence| format!("<p>{}</p>\n", escaped(sentence))).collect();
    body += &notes(answer);
    body += &match &answer.result {
        Some(Found::Map { images, .. }) => partners("Partners", images, &answer.sheets[0], &answer.sheets[1]),
        Some(Found::Part { elements, .. }) => {
            partners("Cues of the part", elements, &Sheet::default(), &answer.sheets[0])
        }
        Some(Found::Classes(classes)) => classes_list(answer, classes),
        Some(Found::Rigs(rigs)) => rigs_list(answer, rigs),
        _ => String::new(),
    };
    body += &refusals(answer);
    let pictures = pictures(answer);
    if !pictures.is_empty() {
        let grids: String = pictures.iter().map(Picture::grid).collect();
        let images = images(answer);
        let marked = if images.is_empty() {
            "its row, its column and the cells that lead to it"
        } else {
            "its row, its column, the cells that lead to it and its partner"
        };
        let _ = writeln!(
            body,
            "<p class=\"told\" id=\"told\" role=\"status\">Point at a cue, or tap it: {marked} are marked.</p>"
        );
        body += &format!("<div class=\"grids\">{grids}</div>\n{}", script(images, &pictures));
    }
    let says =
        if answer.says.is_empty() && answer.status == Status::Refused { "A sheet is refused." } else { &answer.says };
    written(title, says, &body)
}

/// The tables of an answer about maps or parts.
fn pictures(answer: &Answer) -> Vec<Picture<'_>> {
    let numbers: Vec<usize> = (1..=120).collect();
    let titled =
        |sheet: &Sheet, what: &str| format!("{what}: {}, {}", sheet.path, count(sheet.order.unwrap_or(0), "cue"));
    let mut pictures = Vec::new();
    if matches!(answer.command, "classes" | "rigs") {
        return pictures;
    }
    if let Some(Found::Part { table, .. }) = &answer.result {
        let colours = numbers[..table.len()].to_vec();
        let title = "The part".into();
        pictures.push(Picture { title, cue: "Cue ", rows: table, names: &[], colours, own: false });
    }
    for sheet in &answer.sheets {
        let Some(rows) = &sheet.table else { continue };
        let (colours, own) = match (&answer.result, sheet.role) {
            (Some(Found::Map { images, .. }), Role::Rig) => (marked(rows.len(), images), true),
            (Some(Found::Part { elements, .. }), _) => (marked(rows.len(), elements), true),
            (Some(Found::Misfit(misfit)), Role::Show) => (reason(rows.len(), misfit), false),
            (_, Role::Show) => (numbers[..rows.len()].to_vec(), false),
            _ => (vec![0; rows.len()], false),
        };
        let (what, cue) = match sheet.role {
            Role::Show => ("The show", "Cue "),
            Role::Rig => ("The rig", "The rig's cue "),
            _ => ("The whole table", "The whole table's cue "),
        };
        pictures.push(Picture { title: titled(sheet, what), cue, rows, names: &sheet.names, colours, own });
    }
    pictures
}

/// The colours of a table in which a map's images have the colours of what they are the images of.
fn marked(order: usize, images: &[u8]) -> Vec<usize> {
    let mut colours = vec![0; order];
    for (element, &image) in images.iter().enumerate() {
        colours[usize::from(image) - 1] = element + 1;
    }
    colours
}

/// The colours of a show in which the part without a place is marked, or nothing where none was found.
fn reason(order: usize, misfit: &Misfit) -> Vec<usize> {
    let held = misfit.smallest.as_ref().map_or(&[][..], |part| &part.elements);
    let is_held = |cue: usize| held.iter().any(|&element| usize::from(element) == cue);
    (1..=order).map(|cue| if is_held(cue) { MOST_COLOURS + 1 } else { 0 }).collect()
}

/// The class of what belongs to a cue: a colour of its own where there are few, else the one for all, since an eye does not tell more apart.
fn class_of(cue: usize, cues: usize) -> String {
    if cues > MOST_COLOURS || cue > MOST_COLOURS {
        "m".into()
    } else {
        format!("m c{cue}")
    }
}

/// What was mended, and hints.
fn notes(answer: &Answer) -> String {
    let mut lines = Vec::new();
    for sheet in &answer.sheets {
        let names = sheet.name_sheet.iter().map(|names| (&names.path, &names.mended));
        for (path, mended) in
            [(&sheet.path, &sheet.mended)].into_iter().chain(names).filter(|(_, mended)| !mended.is_empty())
        {
            lines.push(format!("{path}: mended on reading: {}.", mended.join("; ")));
        }
    }
    lines.extend(answer.hints.iter().cloned());
    let items: String = lines.iter().map(|line| format!("<li>{}", escaped(line))).collect();
    if items.is_empty() {
        items
    } else {
        format!("<ul class=\"notes\">{items}</ul>\n")
    }
}

/// What is wrong with sheets, in words and marked in their cells.
fn refusals(answer: &Answer) -> String {
    let mut text = String::new();
    for sheet in &answer.sheets {
        if let Some(refusal) = &sheet.refusal {
            let _ = write!(
                text,
                "<section><h2>Refused</h2>\n<pre>{}</pre>\n",
                escaped(&refused(&sheet.path, refusal, PLAIN))
            );
            text += &sheet.cells.as_ref().map_or(String::new(), |cells| faulty(cells, refusal));
            text += "</section>\n";
        }
        if let Some((path, refusal)) =
            sheet.name_sheet.as_ref().and_then(|names| Some((&names.path, names.refusal.as_ref()?)))
        {
            let _ = writeln!(
                text,
                "<section><h2>Names</h2>\n<pre>{}</pre></section>",
                escaped(&refused(path, refusal, PLAIN))
            );
        }
    }
    text
}

/// The cells of a refused sheet as a spreadsheet shows them, with the faults marked.
fn faulty(cells: &Cells, refusal: &Refusal) -> String {
    let is_faulty = |row: usize, column: usize| refusal.faults.iter().any(|fault| fault.cells.contains(&[row, column]));
    let width = cells.rows.iter().map(Vec::len).max().unwrap_or(0);
    let mut grid = String::from("<div class=\"blocks\"><table class=\"grid\"><thead><tr><th class=\"corner\">");
    for column in 0..width {
        let _ = write!(grid, "<th scope=\"col\">{}", letters(cells.column - 1 + column));
    }
    grid += "</thead><tbody>\n";
    for (place, row) in cells.rows.iter().enumerate() {
        let number = cells.row + place;
        let _ = write!(grid, "<tr><th scope=\"row\">{number}");
        for column in 0..width {
            let class = if is_faulty(number, cells.column + column) { " class=\"fault\"" } else { "" };
            let _ = write!(grid, "<td{class}>{}", row.get(column).map_or(String::new(), |text| escaped(text)));
        }
        grid += "\n";
    }
    grid + "</tbody></table></div>\n"
}

/// One table of a page, with the colour of each of its elements; 0 stands for none.
struct Picture<'a> {
    title: String,
    /// What its cues are called, before their numbers.
    cue: &'static str,
    rows: &'a [Vec<u8>],
    names: &'a [String],
    colours: Vec<usize>,
    /// Whether marked elements are partners of others, whose numbers are shown.
    own: bool,
}

impl Picture<'_> {
    fn order(&self) -> usize {
        self.rows.len()
    }

    fn product(&self, i: usize, j: usize) -> usize {
        self.rows[i - 1][j - 1].into()
    }

    fn colour(&self, element: usize) -> usize {
        self.colours[element - 1]
    }

    /// The number of cues that are marked.
    fn cues(&self) -> usize {
        self.colours.iter().filter(|&&colour| colour > 0).count()
    }

    /// Whether every cue would be marked alike, which says nothing.
    fn is_plain(&self) -> bool {
        self.cues() == self.order() && self.order() > MOST_COLOURS && !self.own
    }

    /// A product: marked where both factors and so the product are, with the cue that it is the partner of.
    fn cell(&self, i: usize, j: usize) -> String {
        let product = self.product(i, j);
        if self.colour(i) > 0 && self.colour(j) > 0 && !self.is_plain() {
            let cue = self.colour(product);
            format!("<td class=\"{}\">{product}{}", class_of(cue, self.cues()), self.source_of(product))
        } else {
            format!("<td>{product}")
        }
    }

    /// The cue that an element is the partner of, where that has another number.
    fn source_of(&self, element: usize) -> String {
        match self.colour(element) {
            0 => String::new(),
            cue if self.own => format!("<small>{cue}</small>"),
            _ => String::new(),
        }
    }

    fn heading(&self, element: usize, scope: &str) -> String {
        let class = match self.colour(element) {
            0 => String::new(),
            _ if self.is_plain() => String::new(),
            cue => format!(" class=\"{}\"", class_of(cue, self.cues())),
        };
        let title = self.names.get(element - 1).map_or(String::new(), |name| format!(" title=\"{}\"", escaped(name)));
        format!("<th scope=\"{scope}\"{class}{title}>{element}{}", self.source_of(element))
    }

    /// The rows of the grid, for some of its columns.
    fn block(&self, columns: std::ops::RangeInclusive<usize>) -> String {
        let mut block =
            format!("<table class=\"grid\" data-first=\"{}\"><thead><tr><th class=\"corner\">·", columns.start());
        for j in columns.clone() {
            block += &self.heading(j, "col");
        }
        block += "</thead><tbody>\n";
        for i in 1..=self.order() {
            block += "<tr>";
            block += &self.heading(i, "row");
            for j in columns.clone() {
                block += &self.cell(i, j);
            }
            block += "\n";
        }
        block + "</tbody></table>"
    }

    /// The whole grid. On paper its blocks stand one below the other.
    fn grid(&self) -> String {
        let order = self.order();
        let blocks = order.div_ceil(MOST_COLUMNS);
        let width = order.div_ceil(blocks);
        let large = if order > PAGE_ROWS { " large" } else { "" };
        let plain = if self.is_plain() { " plain" } else { "" };
        let class = format!("picture{large}{plain}");
        let mut grid = format!("<section class=\"{class}\"><h2>{}</h2>\n<div class=\"blocks\">", escaped(&self.title));
        for first in (1..=order).step_by(width) {
            grid += &self.block(first..=order.min(first + width - 1));
        }
        grid + "</div></section>\n"
    }
}

/// The partners of a map, as a list with the colours of the grids, and a field to look for one.
fn partners(head: &str, map: &[u8], source: &Sheet, target: &Sheet) -> String {
    let class = if source.names.is_empty() && target.names.is_empty() { "partners" } else { "partners named" };
    let mut list = format!(
        "<section><h2>{}</h2>\n<p class=\"filter\"><label>Look for a cue by number or name: <input id=\"filter\" type=\"search\"></label></p>\n\
         <ol class=\"{class}\">\n",
        escaped(head)
    );
    for (element, &image) in map.iter().enumerate() {
        let (from, to) = (source.label(element + 1), target.label(image.into()));
        let class = class_of(element + 1, map.len());
        let _ = writeln!(list, "<li><b class=\"{class}\">{}</b> <span>→ {}</span>", escaped(&from), escaped(&to));
    }
    list + "</ol></section>\n"
}

/// What each cue of the first table becomes in the second; nothing where there is no map.
fn images(answer: &Answer) -> &[u8] {
    match &answer.result {
        Some(Found::Map { images, .. }) => images,
        Some(Found::Part { elements, .. }) => elements,
        _ => &[],
    }
}

/// What the page does where a cue is pointed at, with the map and the names that it needs.
fn script(images: &[u8], pictures: &[Picture]) -> String {
    let names: Vec<_> = pictures.iter().map(|picture| picture.names).collect();
    let cues: Vec<_> = pictures.iter().map(|picture| picture.cue).collect();
    let data =
        serde_json::json!({ "images": images, "names": names, "cues": cues }).to_string().replace('<', "\\u003c");
    format!("<script type=\"application/json\" id=\"data\">{data}</script>\n<script>\n{SCRIPT}</script>\n")
}

/// What came of each rig.
fn rigs_list(answer: &Answer, rigs: &[Rig]) -> String {
    let mut body = String::from(
        "<section><table class=\"rigs\"><thead><tr><th scope=\"col\">Rig<th scope=\"col\">Cues<th scope=\"col\">The show\
         <th scope=\"col\">Time</thead><tbody>\n",
    );
    for rig in rigs {
        let sheet = &answer.sheets[rig.sheet - 1];
        let class = if rig.outcome == RigOutcome::Fits { " class=\"fits\"" } else { "" };
        let cues = sheet.order.map_or(String::new(), |order| order.to_string());
        let _ = writeln!(
            body,
            "<tr{class}><th scope=\"row\">{}<td>{cues}<td>{}<td>{} ms",
            escaped(&sheet.path),
            escaped(&rig_in_words(sheet, rig)),
            rig.milliseconds
        );
    }
    body + "</tbody></table></section>\n"
}

/// The classes, each with its members.
fn classes_list(answer: &Answer, classes: &[Class]) -> String {
    let mut body = String::from("<section><h2>Classes</h2>\n");
    for (place, class) in classes.iter().enumerate() {
        let _ = write!(
            body,
            "<div class=\"class\"><h3><b class=\"m\">{}</b> {}</h3><ul>",
            place + 1,
            count(class.order, "cue")
        );
        for &member in &class.sheets {
            let _ = write!(body, "<li>{}", escaped(&answer.sheets[member - 1].path));
        }
        body += "</ul></div>\n";
    }
    body + "</section>\n"
}

fn written(title: &str, says: &str, body: &str) -> String {
    let title = escaped(title);
    format!(
        "<!DOCTYPE html>\n<html lang=\"en\">\n<meta charset=\"utf-8\">\n{MARK}\n<meta name=\"viewport\" \
         content=\"width=device-width\">\n<title>{title}</title>\n<style>\n{}{}</style>\n<h1>{title}</h1>\n<p>{}</p>\n{body}</html>\n",
        STYLE.replace("TITLE", &title),
        palette(),
        escaped(says)
    )
}

/// A colour for each of few numbers, light on white paper and dark on a dark screen.
fn palette() -> String {
    let hue = |colour: usize| (colour * 150) % 360;
    let rule = |colour: usize, light: usize| format!(".c{colour}{{--mark:hsl({},{}%,{light}%)}}\n", hue(colour), 60);
    let light: String = (1..=MOST_COLOURS).map(|colour| rule(colour, 86)).collect();
    let dark: String = (1..=MOST_COLOURS).map(|colour| rule(colour, 24)).collect();
    format!("{light}@media screen and (prefers-color-scheme:dark){{\n{dark}}}\n")
}

pub fn escaped(text: &str) -> String {
    text.replace('&', "&amp;").replace('<', "&lt;").replace('>', "&gt;").replace('"', "&quot;")
}

const STYLE: &str = "\
:root{color-scheme:light dark;--ink:#16181d;--paper:#fff;--faint:#5c6370;--line:#d6d9df;--strong:#454c59;--mark:#cfe3ff;--at:#fff0b3;--same:#f5b83d;--fault:#b3001b}
@media screen and (prefers-color-scheme:dark){
:root{--ink:#e9ebef;--paper:#14171c;--faint:#a3aab7;--line:#343a45;--strong:#8f98a8;--mark:#1c3d6b;--at:#46400f;--same:#7d5a00;--fault:#b3001b}
}
body{font:16px/1.45 system-ui,sans-serif;margin:1.5rem;color:var(--ink);background:var(--paper)}
h1{font-size:1.5rem;margin:0 0 .3rem}
h2{font-size:1.1rem;margin:1.5rem 0 .5rem;overflow-wrap:anywhere}
h3{font-size:1rem;margin:0 0 .3rem}
p{max-width:70rem;overflow-wrap:anywhere}
.told{max-width:none;position:sticky;top:0;z-index:3;margin:1rem 0 0;padding:.3rem 0;background:var(--paper);color:var(--faint);border-bottom:1px solid var(--line)}
.told.on{color:var(--ink);font-weight:600}
.filter input{font:inherit;width:12rem;max-width:100%;color:inherit;background:var(--paper);border:1px solid var(--strong);border-radius:4px;padding:.1rem .4rem}
.blocks{display:flex;overflow:auto;max-height:85vh;width:fit-content;max-width:100%}
.grids{display:flex;flex-wrap:wrap;column-gap:3rem;align-items:flex-start}
.grids section{max-width:100%;min-width:0}
.grid{border-collapse:separate;border-spacing:0;font:12px/1 ui-monospace,monospace;font-variant-numeric:tabular-nums;height:fit-content}
.grid td,.grid th{min-width:2em;height:2em;padding:0 2px;text-align:center;border:solid var(--line);border-width:0 1px 1px 0;cursor:default}
.grid td{color:var(--faint)}
.grid small{display:block;font-size:9px;font-weight:400}
.m{background:var(--mark)}
.grid td.m,.plain .grid td{color:var(--ink)}
.grid th{font-weight:700;position:sticky;z-index:1;background:var(--paper)}
.grid th.m{background:var(--mark)}
.grid thead th{top:0;border-bottom:2px solid var(--strong)}
.grid tbody th,.grid .corner{left:0;border-right:2px solid var(--strong)}
.grid .corner{z-index:2}
.grid .at,.grid th.at{background:var(--at);color:var(--ink)}
.grid .same,.grid .at.same{background:var(--same);color:var(--ink);font-weight:700}
.grid+.grid .corner,.grid+.grid tbody th{display:none}
.partners{columns:7rem;padding:0;margin:0;list-style:none}
.named{columns:24rem}
.partners li{break-inside:avoid;padding:.1rem 0;overflow-wrap:anywhere}
.partners b,.partners span{display:inline-block}
.partners b,h3 b{border:1px solid var(--strong);border-radius:3px;padding:0 .4em;font-weight:600}
.class{break-inside:avoid;margin:0 0 1rem}
.class ul{margin:0;columns:18rem}
.class li,.notes li{overflow-wrap:anywhere}
pre{white-space:pre-wrap;overflow-wrap:anywhere}
.grid td.fault{background:var(--fault);color:#fff;font-weight:700}
.rigs{border-collapse:collapse}
.rigs th,.rigs td{text-align:left;vertical-align:top;padding:.15rem .8rem .15rem 0;border-bottom:1px solid var(--line);font-weight:400}
.rigs tbody th{overflow-wrap:anywhere;min-width:8rem}
.rigs td:last-child{white-space:nowrap}
.rigs thead th,.rigs .fits th,.rigs .fits td{font-weight:700}
.notes{color:var(--faint);margin:.5rem 0;padding-left:1.2rem}
@media (max-width:600px){
body{margin:.8rem}
}
@media print{
@page{size:A4 landscape;margin:12mm 10mm;@bottom-left{content:'TITLE';font:8pt sans-serif}@bottom-right{content:'Page ' counter(page) ' of ' counter(pages);font:8pt sans-serif}}
*{print-color-adjust:exact;-webkit-print-color-adjust:exact}
body{margin:0;font-size:10pt}
.told,.filter{display:none}
.grids,.blocks{display:block;overflow:visible;max-height:none;max-width:none}
.grids .large{break-before:page}
h2{break-after:avoid}
.grid{font-size:6pt;border:solid var(--line);border-width:1px 0 0 1px}
.grid small{font-size:4.5pt}
.grid td,.grid th{min-width:0;width:4.4mm;height:4mm;padding:0;position:static}
.grid tr{break-inside:avoid}
.grid+.grid{break-before:page}
.grid+.grid .corner,.grid+.grid tbody th{display:table-cell}
}
";

const SCRIPT: &str = "\
const {images,names,cues}=JSON.parse(document.getElementById('data').textContent)
const told=document.getElementById('told'),filter=document.getElementById('filter'),items=[...document.querySelectorAll('.partners li')]
const place=cell=>{const table=cell.closest('table');return[cell.parentNode.rowIndex,cell.cellIndex&&cell.cellIndex+ +table.dataset.first-1]}
const number=cell=>parseInt(cell.firstChild&&cell.firstChild.data)||0
const grids=[...document.querySelectorAll('.picture')].map(section=>{
  const at={},same={},put=(list,key,cell)=>(list[key]=list[key]||[]).push(cell)
  for(const cell of section.querySelectorAll('td,th')){
    const[row,column]=place(cell)
    if(row)put(at,row,cell)
    if(column&&column!==row)put(at,column,cell)
    if(cell.tagName==='TD')put(same,number(cell),cell)
  }
  return{section,at,same}
})
let marked=[],held=false
const label=(side,cue)=>names[side][cue-1]?cue+' \"'+names[side][cue-1]+'\"':''+cue
function clear(){
  for(const cell of marked)cell.classList.remove('at','same')
  marked=[];told.classList.remove('on')
}
function mark(side,cue){
  const grid=grids[side]
  if(!grid||!cue)return
  for(const cell of grid.at[cue]||[]){cell.classList.add('at');marked.push(cell)}
  for(const cell of grid.same[cue]||[]){cell.classList.add('same');marked.push(cell)}
}
function show(side,cue){
  clear()
  if(!cue)return
  const other=!images.length?0:side?images.indexOf(cue)+1:images[cue-1]
  mark(side,cue);mark(1-side,other)
  const count=((grids[side]||{same:{}}).same[cue]||[]).length
  let text=cues[side]+label(side,cue)+': '+count+(count===1?' cell leads':' cells lead')+' to it'
  if(images.length)text+=side?(other?'; the partner of '+label(0,other):'; no partner'):'; its partner is '+label(1,other)
  told.textContent=text+'.';told.classList.add('on')
}
grids.forEach(({section},side)=>{
  const cell=event=>event.target.closest('td,th')
  section.addEventListener('pointerover',event=>{if(!held&&cell(event))show(side,number(cell(event)))})
  section.addEventListener('pointerleave',()=>{if(!held)clear()})
  section.addEventListener('click',event=>{if(cell(event)){held=!held;show(side,number(cell(event)))}})
})
items.forEach((item,place)=>{
  item.addEventListener('pointerover',()=>{if(!held)show(0,place+1)})
  item.addEventListener('pointerleave',()=>{if(!held)clear()})
  item.addEventListener('click',()=>{held=!held;show(0,place+1)})
})
if(filter)filter.addEventListener('input',()=>{
  const wanted=filter.value.trim().toLowerCase(),found=[]
  items.forEach((item,place)=>{
    const hit=/^[0-9]+$/.test(wanted)?+wanted===place+1||+wanted===images[place]:item.textContent.toLowerCase().includes(wanted)
    item.hidden=!hit
    if(hit)found.push(place+1)
  })
  held=found.length===1
  if(held)show(0,found[0]);else clear()
})
";

#[cfg(test)]
mod tests {
    use super::*;

    /// How light a colour is, from 0 to 1, as the contrast of web pages is reckoned.
    fn luminance(colour: [f64; 3]) -> f64 {
        let linear = |part: f64| if part <= 0.040_45 { part / 12.92 } else { ((part + 0.055) / 1.055).powf(2.4) };
        0.2126 * linear(colour[0]) + 0.7152 * linear(colour[1]) + 0.0722 * linear(colour[2])
    }

    /// The colour of a variable in the style, in the light or the dark half: `#fff` or `#16181d`.
    fn variable(name: &str, dark: bool) -> [f64; 3] {
        let half = STYLE.split("prefers-color-scheme:dark").nth(usize::from(dark)).expect("the style has two halves");
        let text = half.split(&format!("--{name}:#")).nth(1).expect("the variable is there");
        let digits: Vec<u32> = text.chars().map_while(|digit| digit.to_digit(16)).collect();
        let part = |place: usize| match digits.len() {
            3 => 17 * digits[place],
            _ => 16 * digits[2 * place] + digits[2 * place + 1],
        };
        [0, 1, 2].map(|place| f64::from(part(place)) / 255.0)
    }

    /// The colour of a hue in degrees, a saturation of 60 % and this lightness.
    fn of_hue(hue: usize, light: f64) -> [f64; 3] {
        let chroma = (1.0 - (2.0 * light - 1.0).abs()) * 0.6;
        [0, 8, 4].map(|shift| {
            let turn = (f64::from(shift) + f64::from(u16::try_from(hue).expect("it is small")) / 30.0) % 12.0;
            light - chroma / 2.0 * (turn - 3.0).min(9.0 - turn).clamp(-1.0, 1.0)
        })
    }

    #[test]
    fn letters_can_be_read() {
        for dark in [false, true] {
            let [ink, paper, faint, mark, at, same] =
                ["ink", "paper", "faint", "mark", "at", "same"].map(|name| variable(name, dark));
            let light = if dark { 0.24 } else { 0.86 };
            let hues = (1..=MOST_COLOURS).map(|colour| (ink, of_hue(colour * 150 % 360, light)));
            let pairs = [
                (ink, paper),
                (faint, paper),
                (ink, mark),
                (ink, at),
                (ink, same),
                ([1.0; 3], variable("fault", dark)),
            ];
            for (letters, ground) in pairs.into_iter().chain(hues) {
                let (one, other) = (luminance(letters) + 0.05, luminance(ground) + 0.05);
                assert!(one.max(other) / one.min(other) >= 4.5, "{letters:?} on {ground:?}");
            }
        }
    }
}
