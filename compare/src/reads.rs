//! Reads that tell two pools apart: "every list of copy, clear, left, right, value, east, north and same gives equal answers on both,
//! each started from its pool as it was" (02, S-9), or one is found that does not.
//!
//! A path is a register and a list of lefts and rights. Both pools are walked in step, by breadth: the links that stand in the same
//! register are paired, and then the left links and the right links of paired pairs. The first disagreement gives the list. Where
//! there is none, every path leads to a cell of one pool and to the cell paired with it of the other, and no list differs. The pools
//! may be of any sizes; nothing is saved.

use crate::model::{Cell, Pool};
use crate::{Call, POINT, REGISTERS};

/// What a path, or two, lead to in one pool and not in the other.
#[derive(Clone, Copy, Debug, PartialEq, Eq, PartialOrd, Ord)]
pub enum Difference {
    /// Nil, and a cell.
    Nil,
    /// A pair, and a point.
    Kind,
    /// Two cells with other values.
    Value,
    /// Two points with another x.
    X,
    /// Two points with another y.
    Y,
    /// Two paths lead to one cell of the first pool, and to two of the second.
    SharedInFirst,
    /// To one cell of the second pool, and to two of the first.
    SharedInSecond,
}

/// Two pools told apart.
#[derive(Clone, Debug, PartialEq, Eq)]
pub struct Distinction {
    pub difference: Difference,
    /// Reads on one or two registers. On both pools all are done but the last, whose answers differ.
    pub reads: Vec<Call>,
}

/// Is this one of the eight reads?
pub fn is_read(call: Call) -> bool {
    use Call::*;
    match call {
        Copy { .. } | Clear { .. } | Left { .. } | Right { .. } => true,
        Value { .. } | East { .. } | North { .. } | Same { .. } => true,
        New { .. } | Point { .. } | SetLeft { .. } | SetRight { .. } | SetValue { .. } | Collect => false,
    }
}

/// How a path ends: with its register, or with a link of the pair that an earlier path leads to.
#[derive(Clone, Copy)]
enum End {
    Register(u32),
    Left(usize),
    Right(usize),
}

/// Paths in the order in which they are found, each with what it leads to in the first pool and in the second.
struct Paths(Vec<(End, [u32; 2])>);

impl Paths {
    /// The register that a path starts from.
    fn register(&self, mut path: usize) -> u32 {
        loop {
            match self.0[path].0 {
                End::Register(register) => return register,
                End::Left(before) | End::Right(before) => path = before,
            }
        }
    }

    /// Go from a path's start, which register r holds, to its end in r.
    fn walk(&self, mut path: usize, r: u32) -> Vec<Call> {
        let mut backwards = Vec::new();
        loop {
            let (call, before) = match self.0[path].0 {
                End::Register(_) => break,
                End::Left(before) => (Call::Left { r, a: r }, before),
                End::Right(before) => (Call::Right { r, a: r }, before),
            };
            backwards.push(call);
            path = before;
        }
        backwards.into_iter().rev().collect()
    }

    /// Walk a path in its own register, and read what is there.
    fn read(&self, path: usize, read: impl Fn(u32) -> Call) -> Vec<Call> {
        let a = self.register(path);
        let mut reads = self.walk(path, a);
        reads.push(read(a));
        reads
    }

    /// Walk two paths, each in a register of its own, and ask whether they lead to the same cell.
    fn same(&self, first: usize, second: usize) -> Vec<Call> {
        let (mut a, b) = (self.register(first), self.register(second));
        let mut reads = Vec::new();
        if a == b {
            a = u32::from(b == 0);
            reads.push(Call::Copy { r: a, a: b });
        }
        reads.extend(self.walk(first, a));
        reads.extend(self.walk(second, b));
        reads.push(Call::Same { a, b });
        reads
    }
}

/// The first disagreement of two well-formed pools, if there is one.
pub fn distinguish(one: &Pool, other: &Pool) -> Option<Distinction> {
    use Difference::*;
    let pools = [one, other];
    let starts = (0..REGISTERS).map(|i| (End::Register(i as u32), pools.map(|pool| pool.registers[i])));
    let mut paths = Paths(starts.collect());
    // The first path to each cell, of either pool.
    let mut first = pools.map(|pool| vec![None; pool.cells.len() + 1]);
    let mut path = 0;
    while path < paths.0.len() {
        let [a, b] = paths.0[path].1;
        let found = |difference: Difference, reads: Vec<Call>| Some(Distinction { difference, reads });
        let value = |a: u32| Call::Value { a };
        let before = [first[0][a as usize], first[1][b as usize]];
        match before {
            _ if a == 0 && b == 0 => {}
            _ if a == 0 || b == 0 => return found(Nil, paths.read(path, value)),
            // Paired with each other before, or each with another cell.
            [Some(of_a), Some(of_b)] if of_a == of_b => {}
            [Some(of_a), _] => return found(SharedInFirst, paths.same(of_a, path)),
            [None, Some(of_b)] => return found(SharedInSecond, paths.same(of_b, path)),
            [None, None] => {
                (first[0][a as usize], first[1][b as usize]) = (Some(path), Some(path));
                let (a, b): (&Cell, &Cell) = (one.cell(a), other.cell(b));
                let is_point = a.state == POINT;
                if is_point != (b.state == POINT) {
                    return found(Kind, paths.read(path, |a| Call::East { a }));
                }
                if a.value != b.value {
                    return found(Value, paths.read(path, value));
                }
                if !is_point {
                    paths.0.push((End::Left(path), [a.left, b.left]));
                    paths.0.push((End::Right(path), [a.right, b.right]));
                } else if a.left != b.left {
                    return found(X, paths.read(path, |a| Call::East { a }));
                } else if a.right != b.right {
                    return found(Y, paths.read(path, |a| Call::North { a }));
                }
            }
        }
        path += 1;
    }
    None
}
