//! The picture of docs/PERFORMANCE.md, drawn from its tables: how long the library takes beside plain Rust and plain C.

use std::fmt::Write;

/// One row of the picture: what was measured, and the ratios that are known.
struct Row {
    name: String,
    rust: Option<f64>,
    c: Option<f64>,
}

/// Where a bar begins, how long the ratio 1 is, the height of a row, and where the first one begins.
const LEFT: f64 = 330.0;
const ONE: f64 = 200.0;
const HEIGHT: usize = 24;
const TOP: usize = 58;
/// Where the figures end, behind every bar: those of plain Rust and those of plain C.
const FIGURES: [f64; 2] = [LEFT + 1.5 * ONE + 65.0, LEFT + 1.5 * ONE + 115.0];
const COLOURS: [&str; 2] = ["#4a7ab5", "#b5793a"];

fn cells(line: &str) -> Vec<&str> {
    line.trim_matches('|').split('|').map(str::trim).collect()
}

/// A table of the document: the title before it, its heads, its rows.
struct Table<'a> {
    title: &'a str,
    heads: Vec<&'a str>,
    rows: Vec<Vec<&'a str>>,
}

fn tables(document: &str) -> Vec<Table<'_>> {
    let mut list: Vec<Table> = Vec::new();
    let mut title = "";
    let mut within = false;
    for line in document.lines() {
        if let Some(text) = line.strip_prefix("### ") {
            title = text;
        }
        if !line.starts_with('|') {
            within = false;
        } else if !within {
            list.push(Table { title, heads: cells(line), rows: Vec::new() });
            within = true;
        } else if !line.starts_with("|---") {
            list.last_mut().expect("a table has begun").rows.push(cells(line));
        }
    }
    list
}

/// The rows to draw: every row that has a ratio to plain Rust or plain C; of the stack those where it has a word for each cell.
fn rows(document: &str) -> Vec<Row> {
    let mut list = Vec::new();
    for Table { title, heads, rows } in tables(document) {
        let column = |name: &str| heads.iter().position(|head| *head == name);
        let ratio = |row: &[&str], place: Option<usize>| place.and_then(|place| row.get(place)?.parse().ok());
        let (rust, c) = (column("library / plain Rust"), column("library / plain C").or(column("runscript / plain C")));
        for row in rows {
            let name = match (title.split([' ', ',']).next(), heads[0]) {
                _ if column("stack words").is_some_and(|place| row[place] != "4000") => continue,
                _ if column("stack words").is_some() => format!("collect with a stack, {}", row[0]),
                (Some("Collect"), _) => format!("collect, {}", row[0]),
                (_, "script") => format!("script: {}", row[0]),
                _ if column("function").is_some() => format!("{}, {}", row[1], row[0]),
                _ => row[0].to_string(),
            };
            let (rust, c) = (ratio(&row, rust), ratio(&row, c));
            if rust.is_some() || c.is_some() {
                list.push(Row { name: name.replace('`', ""), rust, c });
            }
        }
    }
    list
}

/// The picture as SVG. Figures stand in columns of their own behind the bars, where nothing meets them.
pub fn draw(document: &str) -> String {
    let rows = rows(document);
    let end = TOP + HEIGHT * rows.len();
    let mut svg = String::new();
    let mut put = |line: String| writeln!(svg, "{line}").expect("a text grows");
    let (width, height) = (FIGURES[1] + 20.0, end + 12);
    put(format!(
        r#"<svg xmlns="http://www.w3.org/2000/svg" width="{width}" height="{height}" font-family="sans-serif" font-size="12">"#
    ));
    put(r#"<rect width="100%" height="100%" fill="white"/>"#.into());
    put(r#"<text x="12" y="20" font-weight="bold">Time of the library divided by that of plain code</text>"#.into());
    for (place, name) in ["plain Rust", "plain C"].into_iter().enumerate() {
        let x = 12 + 100 * place;
        put(format!(r#"<rect x="{x}" y="32" width="10" height="10" fill="{}"/>"#, COLOURS[place]));
        put(format!(r#"<text x="{}" y="41">{name}</text>"#, x + 15));
        let head = ["Rust", "C"][place];
        put(format!(
            r#"<text x="{}" y="{}" text-anchor="end" fill="{}">{head}</text>"#,
            FIGURES[place],
            TOP - 8,
            COLOURS[place]
        ));
    }
    for tick in [0.5, 1.0, 1.5] {
        let x = LEFT + ONE * tick;
        let dash = if tick == 1.0 { "" } else { r#" stroke-dasharray="2 4""# };
        put(format!(r##"<line x1="{x}" y1="{}" x2="{x}" y2="{end}" stroke="#999"{dash}/>"##, TOP - 4));
        put(format!(r#"<text x="{x}" y="{}" text-anchor="middle">{tick}</text>"#, TOP - 8));
    }
    for (place, row) in rows.iter().enumerate() {
        let top = TOP + HEIGHT * place;
        put(format!(r#"<text x="{}" y="{}" text-anchor="end">{}</text>"#, LEFT - 8.0, top + 15, row.name));
        for (side, ratio) in [row.rust, row.c].into_iter().enumerate() {
            let Some(ratio) = ratio else { continue };
            let y = top + 2 + 9 * side;
            let long = (ONE * ratio.min(1.5)).round();
            put(format!(r#"<rect x="{LEFT}" y="{y}" width="{long}" height="8" fill="{}"/>"#, COLOURS[side]));
            put(format!(r#"<text x="{}" y="{}" text-anchor="end">{ratio:.2}</text>"#, FIGURES[side], top + 15));
        }
    }
    put("</svg>".into());
    svg
}
