//! Comparison of the static library `libcellpool.a` with an independent model of the pool.
//!
//! * `model` says what every call does to any words; it is written from the customer's document alone. `cause` names why
//!   a call is refused.
//! * `reference` is the document's reference model: cells that are never collected, and a limit.
//! * `baseline` is a second implementation with the algorithms of the source documents, and the benchmark's baseline.
//! * `pool` (feature `archive`) is the library under test behind safe functions.
//! * `reads` finds a list of reads that tells two pools apart, where there is one.
//! * `script` says what the program `runscript` prints.
//! * `visit` names the cases of a visit in marking by reversal: the five of a pair, and that of a point.
//! * `picture` draws the tables of docs/PERFORMANCE.md.
//! * `checks` are the comparisons; the tests run them on every implementation.

pub mod baseline;
pub mod cause;
pub mod checks;
pub mod generate;
pub mod guard;
pub mod model;
pub mod picture;
#[cfg(feature = "archive")]
pub mod pool;
pub mod random;
pub mod reads;
pub mod reference;
pub mod script;
pub mod visit;

/// Refusal numbers of the document.
pub mod refusal {
    /// The length, N, word 0, or the kept cells do not fit together.
    pub const SIZE: u32 = 1;
    /// A register number is 16 or more.
    pub const REGISTER: u32 = 2;
    /// A link, a state or the head is malformed.
    pub const MALFORMED: u32 = 3;
    /// The register is nil where a cell is needed.
    pub const NIL: u32 = 4;
    /// No cell is free.
    pub const FULL: u32 = 5;
    /// The bytes end inside a number.
    pub const TRUNCATED: u32 = 6;
    /// A number of the image is 2^32 or more.
    pub const OUT_OF_RANGE: u32 = 7;
    /// A link of the image is above K.
    pub const LINK_RANGE: u32 = 8;
    /// K is above N.
    pub const TOO_MANY_CELLS: u32 = 9;
    /// The scratch or the output is too short.
    pub const NO_ROOM: u32 = 10;
    /// Too many cells for the recursive marker.
    pub const TOO_LARGE: u32 = 11;
    /// A number of the image is padded: its last group is 0, and it is not the single byte 00.
    pub const PADDED: u32 = 12;
    /// The cell is of the other kind: a point where a pair is needed, or a pair where a point is.
    pub const KIND: u32 = 13;
    /// A kind of the image is neither 0 nor 1.
    pub const KIND_NUMBER: u32 = 14;
}

pub const REGISTERS: usize = 16;
/// Words before the first cell.
pub const HEADER: usize = 18;
/// Words of one cell: state, left, right, value. The left of a point is its x, the right its y.
pub const CELL: usize = 4;
pub const MOST_CELLS: usize = 4000;
/// Most cells for the recursive marker.
pub const MOST_RECURSIVE: usize = 64;
/// States. A used cell is a pair, of two links, or a point, of two numbers.
pub const PAIR: u32 = 0;
pub const FREE: u32 = 4;
pub const POINT: u32 = 5;

/// Is a cell of this state used?
pub fn is_used(state: u32) -> bool {
    state == PAIR || state == POINT
}

/// The fewest words of a pool of `n` cells: up to three more are left over.
pub fn words_for(n: usize) -> usize {
    HEADER + CELL * n
}

/// Place of the state of cell `i`, counted from 1.
pub fn cell_at(i: u32) -> usize {
    HEADER + CELL * (i as usize - 1)
}

/// The running tally of the second form of collect.
#[derive(Clone, Copy, Debug, PartialEq, Eq)]
pub struct Tally {
    pub collections: u32,
    pub visits: u32,
}

/// The functions of the library. A refusal is `Err` with its number, or with what else `R` says of it.
pub trait Interface<R = u32> {
    /// Answers N and the words left over.
    fn fresh(&self, words: &mut [u32]) -> Result<(u32, u32), R>;
    fn copy(&self, words: &mut [u32], r: u32, a: u32) -> Result<(), R>;
    fn clear(&self, words: &mut [u32], r: u32) -> Result<(), R>;
    /// Answers visits.
    fn new_cell(&self, words: &mut [u32], r: u32, a: u32, b: u32, v: u32) -> Result<u32, R>;
    /// Answers visits.
    fn point(&self, words: &mut [u32], r: u32, v: u32, x: u32, y: u32) -> Result<u32, R>;
    fn left(&self, words: &mut [u32], r: u32, a: u32) -> Result<(), R>;
    fn right(&self, words: &mut [u32], r: u32, a: u32) -> Result<(), R>;
    fn setleft(&self, words: &mut [u32], a: u32, b: u32) -> Result<(), R>;
    fn setright(&self, words: &mut [u32], a: u32, b: u32) -> Result<(), R>;
    fn setvalue(&self, words: &mut [u32], a: u32, v: u32) -> Result<(), R>;
    fn value(&self, words: &mut [u32], a: u32) -> Result<u32, R>;
    /// Answers x.
    fn east(&self, words: &mut [u32], a: u32) -> Result<u32, R>;
    /// Answers y.
    fn north(&self, words: &mut [u32], a: u32) -> Result<u32, R>;
    fn same(&self, words: &mut [u32], a: u32, b: u32) -> Result<u32, R>;
    /// Answers kept and visits.
    fn collect(&self, words: &mut [u32]) -> Result<(u32, u32), R>;
    /// Answers kept and visits.
    fn collect_tally(&self, words: &mut [u32], tally: &mut Tally) -> Result<(u32, u32), R>;
    /// Answers kept, 1 if no check found all entries of the stack needed, else 0, and the number of checks.
    fn collect_stack(&self, words: &mut [u32], stack: &mut [u32]) -> Result<(u32, u32, u32), R>;
    /// Answers the most entries that the stack marker holds on the pool that is built, where it has enough words.
    fn worst_case(&self, words: &mut [u32]) -> Result<u32, R>;
    /// Answers kept and visits.
    fn collect_recursive(&self, words: &mut [u32]) -> Result<(u32, u32), R>;
    /// Answers the number of bytes.
    fn save(&self, words: &mut [u32], scratch: &mut [u32], out: &mut [u8]) -> Result<usize, R>;
    /// Answers also where the bytes behind the image begin; refused, their number.
    fn load(&self, words: &mut [u32], bytes: &[u8]) -> (Result<(), R>, usize);
    fn check_image(&self, bytes: &[u8], n: u32) -> Result<(), R>;
    /// Answers the percent.
    fn occupancy(&self, kept: u32, n: u32) -> Result<u32, R>;
}

/// One of the fourteen calls.
#[derive(Clone, Copy, Debug, PartialEq, Eq)]
pub enum Call {
    Copy { r: u32, a: u32 },
    Clear { r: u32 },
    New { r: u32, a: u32, b: u32, v: u32 },
    Point { r: u32, v: u32, x: u32, y: u32 },
    Left { r: u32, a: u32 },
    Right { r: u32, a: u32 },
    SetLeft { a: u32, b: u32 },
    SetRight { a: u32, b: u32 },
    SetValue { a: u32, v: u32 },
    Value { a: u32 },
    East { a: u32 },
    North { a: u32 },
    Same { a: u32, b: u32 },
    Collect,
}

/// An answer as the reference model gives it: the visits of `new` and `point` are left out.
#[derive(Clone, Copy, Debug, PartialEq, Eq, PartialOrd, Ord)]
pub enum Answer {
    Done,
    Number(u32),
    Pair(u32, u32),
    Refused(u32),
}

/// Make one call; the second part is the visits that an accepted `new` or `point` reports.
pub fn apply(pool: &dyn Interface, words: &mut [u32], call: Call) -> (Answer, Option<u32>) {
    let done = |answer: Result<(), u32>| match answer {
        Ok(()) => Answer::Done,
        Err(refusal) => Answer::Refused(refusal),
    };
    let number = |answer: Result<u32, u32>| match answer {
        Ok(number) => Answer::Number(number),
        Err(refusal) => Answer::Refused(refusal),
    };
    let made = |answer: Result<u32, u32>| match answer {
        Ok(visits) => (Answer::Done, Some(visits)),
        Err(refusal) => (Answer::Refused(refusal), None),
    };
    let answer = match call {
        Call::Copy { r, a } => done(pool.copy(words, r, a)),
        Call::Clear { r } => done(pool.clear(words, r)),
        Call::New { r, a, b, v } => return made(pool.new_cell(words, r, a, b, v)),
        Call::Point { r, v, x, y } => return made(pool.point(words, r, v, x, y)),
        Call::Left { r, a } => done(pool.left(words, r, a)),
        Call::Right { r, a } => done(pool.right(words, r, a)),
        Call::SetLeft { a, b } => done(pool.setleft(words, a, b)),
        Call::SetRight { a, b } => done(pool.setright(words, a, b)),
        Call::SetValue { a, v } => done(pool.setvalue(words, a, v)),
        Call::Value { a } => number(pool.value(words, a)),
        Call::East { a } => number(pool.east(words, a)),
        Call::North { a } => number(pool.north(words, a)),
        Call::Same { a, b } => number(pool.same(words, a, b)),
        Call::Collect => match pool.collect(words) {
            Ok((kept, visits)) => Answer::Pair(kept, visits),
            Err(refusal) => Answer::Refused(refusal),
        },
    };
    (answer, None)
}
