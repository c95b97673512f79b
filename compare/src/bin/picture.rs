//! Draws the picture of docs/PERFORMANCE.md: reads the document from standard input and writes SVG.

use cellpool_compare::picture::draw;
use std::io::{self, Read, Write};

fn main() -> io::Result<()> {
    let mut document = String::new();
    io::stdin().read_to_string(&mut document)?;
    io::stdout().write_all(draw(&document).as_bytes())
}
