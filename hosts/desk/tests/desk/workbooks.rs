//! Workbooks for tests: archives with as little XML as a spreadsheet needs, in the forms that spreadsheets write.

use std::io::{Cursor, Write};
use zip::write::FileOptions;
use zip::ZipWriter;

/// A cell: a number, a text, or nothing.
#[derive(Clone, Debug)]
pub enum Cell {
    Number(f64),
    Text(String),
    Empty,
}

pub type Rows = Vec<Vec<Cell>>;

/// The numbers of a table.
pub fn numbers(table: &[Vec<u8>]) -> Rows {
    table.iter().map(|row| row.iter().map(|&cell| Cell::Number(cell.into())).collect()).collect()
}

/// An archive of files.
pub fn archive(files: &[(&str, &[u8])]) -> Vec<u8> {
    let mut writer = ZipWriter::new(Cursor::new(Vec::new()));
    for (name, bytes) in files {
        writer.start_file(*name, FileOptions::default()).expect("memory takes every file");
        writer.write_all(bytes).expect("memory takes every file");
    }
    writer.finish().expect("memory takes every file").into_inner()
}

fn escaped(text: &str) -> String {
    text.replace('&', "&amp;").replace('<', "&lt;").replace('"', "&quot;")
}

/// An .ods file with these sheets. Cells that are equal and stand side by side are written once and repeated, and so are rows.
pub fn ods(sheets: &[(&str, &Rows)]) -> Vec<u8> {
    let tables: String = sheets.iter().map(|(name, rows)| ods_table(name, rows)).collect();
    let content = format!(
        "<?xml version=\"1.0\" encoding=\"UTF-8\"?><office:document-content><office:body><office:spreadsheet>{tables}\
         </office:spreadsheet></office:body></office:document-content>"
    );
    archive(&[("mimetype", b"application/vnd.oasis.opendocument.spreadsheet"), ("content.xml", content.as_bytes())])
}

fn ods_table(name: &str, rows: &Rows) -> String {
    let rows: Vec<String> = rows.iter().map(|row| ods_row(row)).collect();
    let mut table = format!("<table:table table:name=\"{}\"><table:table-column/>", escaped(name));
    for (row, times) in runs(&rows) {
        table += &format!("<table:table-row table:number-rows-repeated=\"{times}\">{row}</table:table-row>");
    }
    table
        + "<table:table-row table:number-rows-repeated=\"1048000\"><table:table-cell table:number-columns-repeated=\"1024\"/>\
           </table:table-row></table:table>"
}

fn ods_row(row: &[Cell]) -> String {
    let cells: Vec<String> = row.iter().map(ods_cell).collect();
    let repeated = |(cell, times): (&String, usize)| cell.replace("TIMES", &times.to_string());
    runs(&cells).into_iter().map(repeated).collect()
}

fn ods_cell(cell: &Cell) -> String {
    let repeated = "table:number-columns-repeated=\"TIMES\"";
    match cell {
        Cell::Number(number) => format!(
            "<table:table-cell {repeated} office:value-type=\"float\" office:value=\"{number}\"><office:annotation><text:p>5</text:p>\
             </office:annotation><text:p>{number}.00</text:p></table:table-cell>"
        ),
        Cell::Text(text) => format!(
            "<table:table-cell {repeated} office:value-type=\"string\"><text:p>{}</text:p></table:table-cell>",
            escaped(text).replace("  ", " <text:s/>")
        ),
        Cell::Empty => format!("<table:table-cell {repeated}/>"),
    }
}

/// Equal neighbours, with how often they stand there.
fn runs(items: &[String]) -> Vec<(&String, usize)> {
    let mut runs = Vec::<(&String, usize)>::new();
    for item in items {
        match runs.last_mut() {
            Some((last, times)) if *last == item => *times += 1,
            _ => runs.push((item, 1)),
        }
    }
    runs
}

/// An .xlsx file with these sheets. Texts are shared; empty cells are left out, and every other number is the value of a formula.
pub fn xlsx(sheets: &[(&str, &Rows)]) -> Vec<u8> {
    let (mut book, mut relations, mut shared) = (String::new(), String::new(), Vec::new());
    let mut files = Vec::new();
    for (place, (name, rows)) in sheets.iter().enumerate() {
        let id = place + 1;
        book += &format!("<sheet name=\"{}\" sheetId=\"{id}\" r:id=\"rId{id}\"/>", escaped(name));
        relations += &format!("<Relationship Id=\"rId{id}\" Target=\"worksheets/sheet{id}.xml\"/>");
        files.push((format!("xl/worksheets/sheet{id}.xml"), xlsx_sheet(rows, &mut shared)));
    }
    let strings: String =
        shared.iter().map(|text| format!("<si><t xml:space=\"preserve\">{}</t></si>", escaped(text))).collect();
    files.push(("xl/workbook.xml".into(), format!("<workbook><sheets>{book}</sheets></workbook>")));
    files.push(("xl/_rels/workbook.xml.rels".into(), format!("<Relationships>{relations}</Relationships>")));
    files.push(("xl/sharedStrings.xml".into(), format!("<sst>{strings}</sst>")));
    let files: Vec<_> = files.iter().map(|(name, text)| (name.as_str(), text.as_bytes())).collect();
    archive(&files)
}

fn xlsx_sheet(rows: &Rows, shared: &mut Vec<String>) -> String {
    let mut sheet = String::from("<worksheet><sheetData>");
    for (row, cells) in rows.iter().enumerate() {
        sheet += &format!("<row r=\"{}\">", row + 1);
        for (column, cell) in cells.iter().enumerate() {
            let place = format!("{}{}", letters(column), row + 1);
            sheet += &match cell {
                Cell::Number(number) if column % 2 == 0 => format!("<c r=\"{place}\"><v>{number}</v></c>"),
                Cell::Number(number) => format!("<c r=\"{place}\" t=\"n\"><f>A1+1</f><v>{number}.0</v></c>"),
                Cell::Text(text) => {
                    shared.push(text.clone());
                    format!("<c r=\"{place}\" t=\"s\"><v>{}</v></c>", shared.len() - 1)
                }
                Cell::Empty => String::new(),
            };
        }
        sheet += "</row>";
    }
    sheet + "</sheetData></worksheet>"
}

fn letters(column: usize) -> String {
    let last = char::from(b'A' + (column % 26) as u8).to_string();
    if column < 26 {
        last
    } else {
        letters(column / 26 - 1) + &last
    }
}
