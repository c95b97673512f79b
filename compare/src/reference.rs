//! The reference model of the customer's document: a list of cells that only grows, sixteen registers, and a limit.

use crate::refusal::*;
use crate::{Answer, Call, REGISTERS};

#[derive(Clone, Copy, Debug)]
enum Kind {
    Pair { left: Option<usize>, right: Option<usize> },
    Point { x: u32, y: u32 },
}

#[derive(Clone, Debug)]
struct Cell {
    kind: Kind,
    value: u32,
}

#[derive(Clone, Debug)]
pub struct Reference {
    cells: Vec<Cell>,
    registers: [Option<usize>; REGISTERS],
    limit: u64,
}

impl Reference {
    /// No cells, all registers nil.
    pub fn new(limit: u64) -> Reference {
        Reference { cells: Vec::new(), registers: [None; REGISTERS], limit }
    }

    /// The number of cells reached from the registers over left and right.
    pub fn live(&self) -> u64 {
        let (pairs, points) = self.live_by_kind();
        pairs + points
    }

    /// The pairs among them, and the points.
    fn live_by_kind(&self) -> (u64, u64) {
        let mut found = vec![false; self.cells.len()];
        let (mut pairs, mut points) = (0, 0);
        let mut pending: Vec<usize> = self.registers.iter().flatten().copied().collect();
        while let Some(place) = pending.pop() {
            if std::mem::replace(&mut found[place], true) {
                continue;
            }
            match self.cells[place].kind {
                Kind::Pair { left, right } => {
                    pairs += 1;
                    pending.extend(left);
                    pending.extend(right);
                }
                Kind::Point { .. } => points += 1,
            }
        }
        (pairs, points)
    }

    /// The live count that this call asks for, before it: only a `new` or a `point` with valid registers does.
    pub fn asked(&self, call: Call) -> Option<u64> {
        match call {
            Call::New { r, a, b, .. } if valid(&[r, a, b]).is_ok() => Some(self.live()),
            Call::Point { r, .. } if valid(&[r]).is_ok() => Some(self.live()),
            _ => None,
        }
    }

    pub fn step(&mut self, call: Call) -> Answer {
        self.attempt(call).unwrap_or_else(Answer::Refused)
    }

    fn held(&self, a: u32) -> Result<usize, u32> {
        self.registers[a as usize].ok_or(NIL)
    }

    /// The links of the pair in register a.
    fn links(&mut self, a: u32) -> Result<(&mut Option<usize>, &mut Option<usize>), u32> {
        let place = self.held(a)?;
        match &mut self.cells[place].kind {
            Kind::Pair { left, right } => Ok((left, right)),
            Kind::Point { .. } => Err(KIND),
        }
    }

    /// The numbers of the point in register a.
    fn coordinates(&self, a: u32) -> Result<(u32, u32), u32> {
        match self.cells[self.held(a)?].kind {
            Kind::Point { x, y } => Ok((x, y)),
            Kind::Pair { .. } => Err(KIND),
        }
    }

    /// A new cell, and register r gets its place.
    fn append(&mut self, r: u32, cell: Cell) -> Result<(), u32> {
        if self.live() >= self.limit {
            return Err(FULL);
        }
        self.cells.push(cell);
        self.registers[r as usize] = Some(self.cells.len() - 1);
        Ok(())
    }

    fn attempt(&mut self, call: Call) -> Result<Answer, u32> {
        match call {
            Call::Copy { r, a } => {
                valid(&[r, a])?;
                self.registers[r as usize] = self.registers[a as usize];
            }
            Call::Clear { r } => {
                valid(&[r])?;
                self.registers[r as usize] = None;
            }
            Call::New { r, a, b, v } => {
                valid(&[r, a, b])?;
                let (left, right) = (self.registers[a as usize], self.registers[b as usize]);
                self.append(r, Cell { kind: Kind::Pair { left, right }, value: v })?;
            }
            Call::Point { r, v, x, y } => {
                valid(&[r])?;
                self.append(r, Cell { kind: Kind::Point { x, y }, value: v })?;
            }
            Call::Left { r, a } => {
                valid(&[r, a])?;
                self.registers[r as usize] = *self.links(a)?.0;
            }
            Call::Right { r, a } => {
                valid(&[r, a])?;
                self.registers[r as usize] = *self.links(a)?.1;
            }
            Call::SetLeft { a, b } => {
                valid(&[a, b])?;
                let link = self.registers[b as usize];
                *self.links(a)?.0 = link;
            }
            Call::SetRight { a, b } => {
                valid(&[a, b])?;
                let link = self.registers[b as usize];
                *self.links(a)?.1 = link;
            }
            Call::SetValue { a, v } => {
                valid(&[a])?;
                let place = self.held(a)?;
                self.cells[place].value = v;
            }
            Call::Value { a } => {
                valid(&[a])?;
                return Ok(Answer::Number(self.cells[self.held(a)?].value));
            }
            Call::East { a } => {
                valid(&[a])?;
                return Ok(Answer::Number(self.coordinates(a)?.0));
            }
            Call::North { a } => {
                valid(&[a])?;
                return Ok(Answer::Number(self.coordinates(a)?.1));
            }
            Call::Same { a, b } => {
                valid(&[a, b])?;
                let same = self.registers[a as usize] == self.registers[b as usize];
                return Ok(Answer::Number(u32::from(same)));
            }
            Call::Collect => {
                let (pairs, points) = self.live_by_kind();
                return Ok(Answer::Pair((pairs + points) as u32, (3 * pairs + points) as u32));
            }
        }
        Ok(Answer::Done)
    }
}

fn valid(numbers: &[u32]) -> Result<(), u32> {
    if numbers.iter().all(|&number| (number as usize) < REGISTERS) {
        Ok(())
    } else {
        Err(REGISTER)
    }
}
