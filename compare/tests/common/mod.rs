//! The implementations that every comparison runs on, and programs in C.
#![allow(dead_code)]

#[cfg(all(feature = "archive", c_baseline))]
pub mod c;

use cellpool_compare::baseline::PlainRust;
use cellpool_compare::Interface;

pub fn implementations() -> Vec<(&'static str, Box<dyn Interface>)> {
    vec![
        ("plain Rust", Box::new(PlainRust)),
        #[cfg(c_baseline)]
        ("plain C", Box::new(cellpool_compare::pool::PlainC)),
        #[cfg(feature = "archive")]
        ("library", Box::new(cellpool_compare::pool::Archive)),
    ]
}
