//! Runs a script, as the program runscript reads it, on the plain Rust version, and writes the image of the pool that it leaves,
//! which `examples/draw.c` draws. The script comes by standard input, the image goes to standard output.

use cellpool_compare::baseline::PlainRust;
use cellpool_compare::model::Pool;
use cellpool_compare::script;
use std::io::{self, Read, Write};

fn main() -> io::Result<()> {
    let mut text = Vec::new();
    io::stdin().read_to_end(&mut text)?;
    let (_, words) = script::run(&PlainRust, &text, &[]);
    let Ok(pool) = Pool::decode(&words) else {
        return Err(io::Error::new(io::ErrorKind::InvalidInput, "the script makes no pool"));
    };
    io::stdout().write_all(&pool.image())
}
