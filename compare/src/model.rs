//! What every call does to any words, written from the customer's document alone.
//!
//! The words are decoded into a structure, changed there, and encoded again only where the call is accepted: so a
//! refusal changes nothing by construction. The marker goes by breadth with a set; visits are three for each kept
//! pair and one for each kept point, and the cases of the visits are those of the recursive procedure of source document
//! 000, with one more for a point; the stack marker is
//! Algorithm 2 of source document 003, where two equal unmarked links are one: on a list without limit, and on one with a
//! limit, where a full list is checked; the percent is found by trying every whole one. A refusal comes from its cause,
//! and the model answers with either.

use crate::cause::{Cause, Link, Name, Place};
use crate::visit::{Case, Marking, CASES};
use crate::{is_used, Interface, Tally, CELL, FREE, HEADER, MOST_CELLS, MOST_RECURSIVE, PAIR, POINT, REGISTERS};
use std::collections::{BTreeSet, VecDeque};

/// The model of the library.
#[derive(Clone, Copy, Debug, Default)]
pub struct Model;

/// The left of a point is its x, the right its y.
#[derive(Clone, Copy, Debug, PartialEq, Eq)]
pub struct Cell {
    pub state: u32,
    pub left: u32,
    pub right: u32,
    pub value: u32,
}

impl Cell {
    /// Left and right in the graph: a point is a cell with two nil links.
    pub fn links(&self) -> (u32, u32) {
        if self.state == POINT {
            (0, 0)
        } else {
            (self.left, self.right)
        }
    }
}

/// The decoded words of a pool; cell 1 is the first of `cells`.
#[derive(Clone, Debug, PartialEq, Eq)]
pub struct Pool {
    pub head: u32,
    pub registers: [u32; REGISTERS],
    pub cells: Vec<Cell>,
}

/// N, if it is within its limits.
fn limited(n: usize) -> Result<usize, Cause> {
    match n {
        0 => Err(Cause::NoCells),
        1..=MOST_CELLS => Ok(n),
        _ => Err(Cause::ManyCells),
    }
}

/// N and e by the length alone, which is 18 + 4 * N + e with e from 0 to 3.
pub fn cells_for(len: usize) -> Result<(usize, usize), Cause> {
    let behind = len.checked_sub(HEADER).ok_or(Cause::Short)?;
    let fits = |e: &usize| behind.checked_sub(*e).is_some_and(|cells| cells.is_multiple_of(CELL));
    let e = (0..=3).find(fits).expect("one of four numbers in a row is a multiple");
    Ok((limited((behind - e) / CELL)?, e))
}

/// What the stack marker has before it.
pub struct InHand<'a> {
    /// The register that it started from.
    pub register: usize,
    pub cell: u32,
    /// Whether the left and the right link of the cell lead to an unmarked one.
    pub unmarked: (bool, bool),
    /// What it holds, the newest entry last.
    pub entries: &'a [u32],
}

/// What became of an entry in a check.
#[derive(Clone, Copy, Debug, PartialEq, Eq)]
pub struct Walk {
    /// How many different unmarked links the entry had when the check began.
    pub open: usize,
    /// The cells that were gone to from the entry.
    pub cells: usize,
    /// Whether one of these was gone to over two equal links.
    pub over_equal: bool,
    /// The cell that the entry becomes, itself where none was gone to; none where it is dropped.
    pub kept: Option<u32>,
}

/// A check of the entries, of which as many are held as there are words.
pub struct Check {
    /// The register that the marker started from.
    pub register: usize,
    /// What became of each entry, from top to bottom.
    pub walks: Vec<Walk>,
}

/// What the stack marker does with a limit.
pub struct Limited {
    /// No check found all entries needed.
    pub enough: bool,
    pub checks: u32,
    /// What is marked at the end, or when the last check was in vain; nil counts as marked.
    marked: Set,
}

impl Limited {
    /// The cells that are marked.
    pub fn marked(&self) -> BTreeSet<u32> {
        (1..self.marked.0.len() as u32).filter(|&i| self.marked.contains(i)).collect()
    }
}

/// A visit of the recursive procedure.
pub struct Visit<'a> {
    /// The register that its run began from.
    pub register: usize,
    /// The cells that the procedure has entered and not left, the visited one last: the path of source document 000.
    pub path: &'a [u32],
    pub case: Case,
    /// The link that was looked at; none at the third visit, and at that of a point.
    pub next: Option<u32>,
}

/// A set of links.
struct Set(Vec<bool>);

impl Set {
    /// No link of a pool of `n` cells.
    fn new(n: u32) -> Set {
        Set(vec![false; n as usize + 1])
    }

    fn contains(&self, link: u32) -> bool {
        self.0[link as usize]
    }

    /// True if the link is new.
    fn insert(&mut self, link: u32) -> bool {
        !std::mem::replace(&mut self.0[link as usize], true)
    }
}

impl Pool {
    /// The words, if their length and word 0 fit. Those left over are no part of the pool.
    pub fn decode(words: &[u32]) -> Result<Pool, Cause> {
        let (n, _) = cells_for(words.len())?;
        if words[0] as usize != n {
            return Err(Cause::WordZero);
        }
        let mut registers = [0; REGISTERS];
        registers.copy_from_slice(&words[2..HEADER]);
        let cells = words[HEADER..]
            .chunks_exact(CELL)
            .map(|cell| Cell { state: cell[0], left: cell[1], right: cell[2], value: cell[3] })
            .collect();
        Ok(Pool { head: words[1], registers, cells })
    }

    /// Write the pool; the words left over stay.
    pub fn encode(&self, words: &mut [u32]) {
        assert_eq!((words.len() - HEADER) / CELL, self.cells.len());
        words[0] = self.n();
        words[1] = self.head;
        words[2..HEADER].copy_from_slice(&self.registers);
        for (to, cell) in words[HEADER..].chunks_exact_mut(CELL).zip(&self.cells) {
            to.copy_from_slice(&[cell.state, cell.left, cell.right, cell.value]);
        }
    }

    pub fn n(&self) -> u32 {
        self.cells.len() as u32
    }

    pub fn cell(&self, i: u32) -> &Cell {
        &self.cells[i as usize - 1]
    }

    fn cell_mut(&mut self, i: u32) -> &mut Cell {
        &mut self.cells[i as usize - 1]
    }

    /// The word of a cell on this side.
    fn side(&self, i: u32, side: Side) -> u32 {
        match side {
            Side::Left => self.cell(i).left,
            Side::Right => self.cell(i).right,
        }
    }

    /// Why the link is not valid, where it is not.
    fn invalid(&self, link: u32) -> Option<Link> {
        match link {
            0 => None,
            _ if link > self.n() => Some(Link::AboveN),
            _ if !is_used(self.cell(link).state) => Some(Link::NotUsed),
            _ => None,
        }
    }

    /// What keeps the pool from being well-formed.
    fn faults(&self) -> BTreeSet<Cause> {
        let mut faults = BTreeSet::new();
        for &link in &self.registers {
            faults.extend(self.invalid(link).map(Cause::Register));
        }
        for cell in &self.cells {
            match cell.state {
                PAIR => {
                    faults.extend(self.invalid(cell.left).map(Cause::Left));
                    faults.extend(self.invalid(cell.right).map(Cause::Right));
                }
                // "plain numbers and no links" (02, S-8); the words of a free cell are not judged either.
                POINT | FREE => {}
                _ => _ = faults.insert(Cause::State),
            }
        }
        faults
    }

    pub fn well_formed(&self) -> bool {
        self.faults().is_empty()
    }

    fn require_well_formed(&self) -> Result<(), Cause> {
        let mut faults = self.faults().into_iter();
        match (faults.next(), faults.next()) {
            (None, _) => Ok(()),
            (Some(fault), None) => Err(fault),
            _ => Err(Cause::Several),
        }
    }

    /// The register's content where it is read: it has to be valid.
    fn read(&self, name: Name, register: u32) -> Result<u32, Cause> {
        let link = self.registers[register as usize];
        match self.invalid(link) {
            None => Ok(link),
            Some(why) => Err(Cause::Read(name, why)),
        }
    }

    /// The cell in register a.
    fn held(&self, a: u32) -> Result<u32, Cause> {
        match self.read(Name::A, a)? {
            0 => Err(Cause::Nil),
            cell => Ok(cell),
        }
    }

    /// The cell in register a, which has to be of this state.
    fn held_of(&self, state: u32, a: u32) -> Result<u32, Cause> {
        let cell = self.held(a)?;
        if self.cell(cell).state == state {
            Ok(cell)
        } else {
            Err(Cause::OtherKind)
        }
    }

    /// Cells reached from the registers.
    pub fn reached(&self) -> BTreeSet<u32> {
        let found = self.found();
        (1..=self.n()).filter(|&i| found.contains(i)).collect()
    }

    /// The same, by breadth.
    fn found(&self) -> Set {
        let mut found = Set::new(self.n());
        let mut queue: VecDeque<u32> = self.registers.into_iter().collect();
        while let Some(link) = queue.pop_front() {
            if link != 0 && found.insert(link) {
                let (left, right) = self.cell(link).links();
                queue.push_back(left);
                queue.push_back(right);
            }
        }
        found
    }

    /// Cells reached from the registers, by the recursive procedure of source document 000.
    pub fn reached_recursively(&self) -> BTreeSet<u32> {
        fn mark(pool: &Pool, link: u32, found: &mut BTreeSet<u32>) {
            if link == 0 || !found.insert(link) {
                return;
            }
            let (left, right) = pool.cell(link).links();
            mark(pool, left, found);
            mark(pool, right, found);
        }
        let mut found = BTreeSet::new();
        for link in self.registers {
            mark(self, link, &mut found);
        }
        found
    }

    /// The recursive procedure of source document 000, which visits a pair three times, and a point once: the case of a visit of
    /// a pair is told by whether it calls itself for the link. Each visit is shown; no link is reversed.
    pub fn mark_recursively(&self, mut show: impl FnMut(Visit)) {
        struct Walk<'a> {
            pool: &'a Pool,
            register: usize,
            marked: Set,
            path: Vec<u32>,
            show: &'a mut dyn FnMut(Visit),
        }
        impl Walk<'_> {
            fn visit(&mut self, case: Case, next: Option<u32>) {
                (self.show)(Visit { register: self.register, path: &self.path, case, next });
            }

            fn mark(&mut self, p: u32) {
                let Cell { state, left, right, .. } = *self.pool.cell(p);
                self.marked.insert(p);
                self.path.push(p);
                if state == POINT {
                    self.visit(Case::Point, None);
                    self.path.pop();
                    return;
                }
                if self.marked.contains(left) {
                    self.visit(Case::PassLeft, Some(left));
                } else {
                    self.visit(Case::FollowLeft, Some(left));
                    self.mark(left);
                }
                if self.marked.contains(right) {
                    self.visit(Case::PassRight, Some(right));
                } else {
                    self.visit(Case::FollowRight, Some(right));
                    self.mark(right);
                }
                self.visit(Case::Retreat, None);
                self.path.pop();
            }
        }
        // Nil counts as marked.
        let mut marked = Set::new(self.n());
        marked.insert(0);
        let mut walk = Walk { pool: self, register: 0, marked, path: Vec::new(), show: &mut show };
        for (register, link) in self.registers.into_iter().enumerate() {
            walk.register = register;
            if !walk.marked.contains(link) {
                walk.mark(link);
            }
        }
    }

    /// What marking by reversal does on the pool, by the recursive procedure.
    pub fn marking(&self) -> Marking {
        let (mut cases, mut entered, mut begun) = (Vec::new(), Vec::new(), BTreeSet::new());
        self.mark_recursively(|visit| {
            cases.push(visit.case);
            begun.insert(visit.register);
            if let (Case::FollowLeft | Case::FollowRight, Some(link)) = (visit.case, visit.next) {
                entered.push(link);
            }
        });
        let times = CASES.map(|case| cases.iter().filter(|&&other| other == case).count() as u32);
        Marking { times, runs: begun.len() as u32, cases, entered }
    }

    /// The cells in the order of their first depth-first visit, left before right, registers in order.
    pub fn depth_first(&self) -> Vec<u32> {
        let mut order = Vec::new();
        let mut seen = Set::new(self.n());
        for register in self.registers {
            let mut pending = vec![register];
            while let Some(link) = pending.pop() {
                if link != 0 && seen.insert(link) {
                    order.push(link);
                    let (left, right) = self.cell(link).links();
                    pending.push(right);
                    pending.push(left);
                }
            }
        }
        order
    }

    /// All free cells form the ascending chain.
    fn chain(&mut self) {
        let free: Vec<u32> = (1..=self.n()).filter(|&i| self.cell(i).state == FREE).collect();
        self.head = free.first().copied().unwrap_or(0);
        for (place, &i) in free.iter().enumerate() {
            let next = free.get(place + 1).copied().unwrap_or(0);
            *self.cell_mut(i) = Cell { state: FREE, left: next, right: 0, value: 0 };
        }
    }

    /// Keep exactly the reached cells; answers how many, and the visits: "3 * pairs + points" (02, S-8).
    fn retain(&mut self) -> (u32, u32) {
        let kept = self.found();
        let (mut pairs, mut points) = (0, 0);
        for i in 1..=self.n() {
            match self.cell(i).state {
                _ if !kept.contains(i) => self.cell_mut(i).state = FREE,
                POINT => points += 1,
                _ => pairs += 1,
            }
        }
        self.chain();
        (pairs + points, 3 * pairs + points)
    }

    /// Algorithm 2 of source document 003 without a limit, where two equal unmarked links are one. Each cell in hand is shown.
    pub fn mark_with_stack(&self, mut show: impl FnMut(InHand)) {
        let mut marked = Set::new(self.n());
        marked.insert(0);
        for (register, link) in self.registers.into_iter().enumerate() {
            if !marked.insert(link) {
                continue;
            }
            let mut entries = Vec::new();
            let mut next = Some(link);
            while let Some(cell) = next {
                let (left, right) = self.cell(cell).links();
                let unmarked = (!marked.contains(left), !marked.contains(right));
                show(InHand { register, cell, unmarked, entries: &entries });
                marked.insert(left);
                marked.insert(right);
                next = match unmarked {
                    (false, false) => entries.pop(),
                    (false, true) => Some(right),
                    (true, false) => Some(left),
                    (true, true) if left == right => Some(left),
                    (true, true) => {
                        entries.push(right);
                        Some(left)
                    }
                };
            }
        }
    }

    /// The most entries that the stack marker ever holds without a limit: those of a push are still there with the next cell in
    /// hand.
    pub fn stack_needed(&self) -> usize {
        let mut most = 0;
        self.mark_with_stack(|hand| most = most.max(hand.entries.len()));
        most
    }

    /// The different links of a cell that are unmarked, the left one first.
    fn open(&self, marked: &Set, cell: u32) -> Vec<u32> {
        let (left, right) = self.cell(cell).links();
        let mut links = vec![left, right];
        links.dedup();
        links.retain(|&link| !marked.contains(link));
        links
    }

    /// Algorithm 2 with a list that takes `words` entries. A push that finds it full checks the entries first; where none of
    /// them goes, that is the end. Each cell that is looked at, in hand or in a check, is shown to `look` with the question
    /// whether a link is marked, and each check to `show`.
    pub fn mark_with_words(
        &self,
        words: usize,
        mut look: impl FnMut(u32, &dyn Fn(u32) -> bool),
        mut show: impl FnMut(&Check),
    ) -> Limited {
        let mut marked = Set::new(self.n());
        marked.insert(0);
        let mut checks = 0;
        for (register, link) in self.registers.into_iter().enumerate() {
            if !marked.insert(link) {
                continue;
            }
            let mut entries: Vec<u32> = Vec::new();
            let mut in_hand = Some(link);
            while let Some(cell) = in_hand {
                look(cell, &|link| marked.contains(link));
                let open = self.open(&marked, cell);
                open.iter().for_each(|&link| _ = marked.insert(link));
                in_hand = match open[..] {
                    [] => entries.pop(),
                    [only] => Some(only),
                    [left, right, ..] => {
                        if entries.len() == words {
                            checks += 1;
                            let check = self.check(register, &entries, &mut marked, &mut look);
                            show(&check);
                            // From top to bottom, and so in the other order than they are held.
                            entries = check.walks.iter().rev().filter_map(|walk| walk.kept).collect();
                            if entries.len() == words {
                                return Limited { enough: false, checks, marked };
                            }
                        }
                        entries.push(right);
                        Some(left)
                    }
                };
            }
        }
        Limited { enough: true, checks, marked }
    }

    /// Walk from each entry, the last one first.
    fn check(
        &self,
        register: usize,
        entries: &[u32],
        marked: &mut Set,
        look: &mut impl FnMut(u32, &dyn Fn(u32) -> bool),
    ) -> Check {
        let open: Vec<usize> = entries.iter().map(|&entry| self.open(marked, entry).len()).collect();
        let mut walks = Vec::new();
        for (&entry, open) in entries.iter().zip(open).rev() {
            let mut walk = Walk { open, cells: 0, over_equal: false, kept: Some(entry) };
            while let Some(cell) = walk.kept {
                look(cell, &|link| marked.contains(link));
                walk.kept = match self.open(marked, cell)[..] {
                    [] => None,
                    [only] => {
                        marked.insert(only);
                        walk.cells += 1;
                        walk.over_equal |= self.cell(cell).left == self.cell(cell).right;
                        Some(only)
                    }
                    _ => break,
                };
            }
            walks.push(walk);
        }
        Check { register, walks }
    }

    /// The saved image of a well-formed pool.
    pub fn image(&self) -> Vec<u8> {
        let order = self.depth_first();
        let mut number = vec![0; self.cells.len() + 1];
        for (place, &i) in order.iter().enumerate() {
            number[i as usize] = place as u32 + 1;
        }
        let mut numbers = vec![order.len() as u32];
        numbers.extend(self.registers.iter().map(|&link| number[link as usize]));
        for &i in &order {
            let cell = self.cell(i);
            numbers.extend(match cell.state {
                POINT => [1, cell.left, cell.right, cell.value],
                _ => [0, number[cell.left as usize], number[cell.right as usize], cell.value],
            });
        }
        numbers.into_iter().flat_map(groups).collect()
    }
}

/// A number in the fewest groups of seven bits, lowest first.
pub fn groups(number: u32) -> Vec<u8> {
    let count = (1..5).find(|&count| u64::from(number) < 1 << (7 * count)).unwrap_or(5);
    (0..count)
        .map(|place| {
            let group = (number >> (7 * place)) as u8 & 0x7F;
            if place + 1 < count {
                group | 0x80
            } else {
                group
            }
        })
        .collect()
}

/// The number at the front of the bytes, and how many bytes it takes.
fn number(bytes: &[u8], place: Place) -> Result<(u32, usize), Cause> {
    let first = &bytes[..bytes.len().min(5)];
    let taken = match first.iter().position(|byte| byte & 0x80 == 0) {
        Some(last) => last + 1,
        None if first.len() < 5 => return Err(Cause::Truncated(place)),
        None => return Err(Cause::Long(place)),
    };
    let written = &first[..taken];
    let groups = written.iter().enumerate();
    let sum: u64 = groups.map(|(group, &byte)| u64::from(byte & 0x7F) << (7 * group)).sum();
    let number = u32::try_from(sum).map_err(|_| Cause::Wide(place))?;
    if written.ends_with(&[0x00]) && written != [0x00] {
        return Err(Cause::Padded(place));
    }
    Ok((number, taken))
}

/// The pool of `n` cells that an image describes, and where the image ends.
pub fn parse(bytes: &[u8], n: usize) -> Result<(Pool, usize), Cause> {
    let mut at = 0;
    let mut next = |place: Place, most: u32| -> Result<u32, Cause> {
        let (number, taken) = number(&bytes[at..], place)?;
        at += taken;
        match (number > most, place) {
            (false, _) => Ok(number),
            (true, Place::K) => Err(Cause::MoreThanN),
            (true, Place::Kind) => Err(Cause::KindNumber),
            (true, _) => Err(Cause::AboveK(place)),
        }
    };
    let k = next(Place::K, n as u32)?;
    let mut registers = [0; REGISTERS];
    for register in &mut registers {
        *register = next(Place::Register, k)?;
    }
    let mut cells = Vec::new();
    for _ in 0..k {
        // A kind is 0 or 1. The numbers of a point are any.
        let (state, places, most) = match next(Place::Kind, 1)? {
            0 => (PAIR, [Place::Left, Place::Right, Place::PairValue], k),
            _ => (POINT, [Place::X, Place::Y, Place::PointValue], u32::MAX),
        };
        let left = next(places[0], most)?;
        let right = next(places[1], most)?;
        let value = next(places[2], u32::MAX)?;
        cells.push(Cell { state, left, right, value });
    }
    cells.resize(n, Cell { state: FREE, left: 0, right: 0, value: 0 });
    let mut pool = Pool { head: 0, registers, cells };
    pool.chain();
    Ok((pool, at))
}

fn require_registers(numbers: &[(Name, u32)]) -> Result<(), Cause> {
    match numbers.iter().find(|(_, number)| *number as usize >= REGISTERS) {
        None => Ok(()),
        Some((name, _)) => Err(Cause::Number(*name)),
    }
}

/// Which link of a pair, or number of a point, a call works on.
#[derive(Clone, Copy)]
enum Side {
    Left,
    Right,
}

impl Model {
    fn follow(&self, words: &mut [u32], r: u32, a: u32, side: Side) -> Result<(), Cause> {
        let mut pool = Pool::decode(words)?;
        require_registers(&[(Name::R, r), (Name::A, a)])?;
        let link = pool.side(pool.held_of(PAIR, a)?, side);
        if let Some(why) = pool.invalid(link) {
            return Err(Cause::LinkRead(why));
        }
        pool.registers[r as usize] = link;
        pool.encode(words);
        Ok(())
    }

    fn relink(&self, words: &mut [u32], a: u32, b: u32, side: Side) -> Result<(), Cause> {
        let mut pool = Pool::decode(words)?;
        require_registers(&[(Name::A, a), (Name::B, b)])?;
        pool.read(Name::A, a)?;
        let link = pool.read(Name::B, b)?;
        let cell = pool.held_of(PAIR, a)?;
        match side {
            Side::Left => pool.cell_mut(cell).left = link,
            Side::Right => pool.cell_mut(cell).right = link,
        }
        pool.encode(words);
        Ok(())
    }

    fn coordinate(&self, words: &[u32], a: u32, side: Side) -> Result<u32, Cause> {
        let pool = Pool::decode(words)?;
        require_registers(&[(Name::A, a)])?;
        Ok(pool.side(pool.held_of(POINT, a)?, side))
    }

    /// Register r gets a new cell with this content; answers the visits.
    fn allocate(&self, mut pool: Pool, words: &mut [u32], r: u32, made: Cell) -> Result<u32, Cause> {
        let mut visits = 0;
        if pool.head == 0 {
            pool.require_well_formed()?;
            (_, visits) = pool.retain();
            if pool.head == 0 {
                return Err(Cause::Full);
            }
        } else if pool.head > pool.n() {
            return Err(Cause::HeadAboveN);
        } else if pool.cell(pool.head).state != FREE {
            return Err(Cause::HeadNotFree);
        } else if pool.cell(pool.head).left > pool.n() {
            return Err(Cause::LeftOfHead);
        }
        let taken = pool.head;
        pool.head = pool.cell(taken).left;
        *pool.cell_mut(taken) = made;
        pool.registers[r as usize] = taken;
        pool.encode(words);
        Ok(visits)
    }

    /// Answers kept and visits.
    fn collected(&self, words: &mut [u32]) -> Result<(u32, u32), Cause> {
        let mut pool = Pool::decode(words)?;
        pool.require_well_formed()?;
        let answer = pool.retain();
        pool.encode(words);
        Ok(answer)
    }
}

/// A refusal is given as its number or as its cause.
impl<R: From<Cause>> Interface<R> for Model {
    fn fresh(&self, words: &mut [u32]) -> Result<(u32, u32), R> {
        let (n, e) = cells_for(words.len())?;
        let free = Cell { state: FREE, left: 0, right: 0, value: 0 };
        let mut pool = Pool { head: 0, registers: [0; REGISTERS], cells: vec![free; n] };
        pool.chain();
        pool.encode(words);
        Ok((n as u32, e as u32))
    }

    fn copy(&self, words: &mut [u32], r: u32, a: u32) -> Result<(), R> {
        let mut pool = Pool::decode(words)?;
        require_registers(&[(Name::R, r), (Name::A, a)])?;
        pool.registers[r as usize] = pool.read(Name::A, a)?;
        pool.encode(words);
        Ok(())
    }

    fn clear(&self, words: &mut [u32], r: u32) -> Result<(), R> {
        let mut pool = Pool::decode(words)?;
        require_registers(&[(Name::R, r)])?;
        pool.registers[r as usize] = 0;
        pool.encode(words);
        Ok(())
    }

    fn new_cell(&self, words: &mut [u32], r: u32, a: u32, b: u32, v: u32) -> Result<u32, R> {
        let pool = Pool::decode(words)?;
        require_registers(&[(Name::R, r), (Name::A, a), (Name::B, b)])?;
        let left = pool.read(Name::A, a)?;
        let right = pool.read(Name::B, b)?;
        Ok(self.allocate(pool, words, r, Cell { state: PAIR, left, right, value: v })?)
    }

    fn point(&self, words: &mut [u32], r: u32, v: u32, x: u32, y: u32) -> Result<u32, R> {
        let pool = Pool::decode(words)?;
        require_registers(&[(Name::R, r)])?;
        Ok(self.allocate(pool, words, r, Cell { state: POINT, left: x, right: y, value: v })?)
    }

    fn left(&self, words: &mut [u32], r: u32, a: u32) -> Result<(), R> {
        Ok(self.follow(words, r, a, Side::Left)?)
    }

    fn right(&self, words: &mut [u32], r: u32, a: u32) -> Result<(), R> {
        Ok(self.follow(words, r, a, Side::Right)?)
    }

    fn setleft(&self, words: &mut [u32], a: u32, b: u32) -> Result<(), R> {
        Ok(self.relink(words, a, b, Side::Left)?)
    }

    fn setright(&self, words: &mut [u32], a: u32, b: u32) -> Result<(), R> {
        Ok(self.relink(words, a, b, Side::Right)?)
    }

    fn setvalue(&self, words: &mut [u32], a: u32, v: u32) -> Result<(), R> {
        let mut pool = Pool::decode(words)?;
        require_registers(&[(Name::A, a)])?;
        let cell = pool.held(a)?;
        pool.cell_mut(cell).value = v;
        pool.encode(words);
        Ok(())
    }

    fn value(&self, words: &mut [u32], a: u32) -> Result<u32, R> {
        let pool = Pool::decode(words)?;
        require_registers(&[(Name::A, a)])?;
        Ok(pool.cell(pool.held(a)?).value)
    }

    fn east(&self, words: &mut [u32], a: u32) -> Result<u32, R> {
        Ok(self.coordinate(words, a, Side::Left)?)
    }

    fn north(&self, words: &mut [u32], a: u32) -> Result<u32, R> {
        Ok(self.coordinate(words, a, Side::Right)?)
    }

    fn same(&self, words: &mut [u32], a: u32, b: u32) -> Result<u32, R> {
        let pool = Pool::decode(words)?;
        require_registers(&[(Name::A, a), (Name::B, b)])?;
        Ok(u32::from(pool.read(Name::A, a)? == pool.read(Name::B, b)?))
    }

    fn collect(&self, words: &mut [u32]) -> Result<(u32, u32), R> {
        Ok(self.collected(words)?)
    }

    fn collect_tally(&self, words: &mut [u32], tally: &mut Tally) -> Result<(u32, u32), R> {
        let (kept, visits) = self.collected(words)?;
        let sum = |before: u32, more: u32| (u64::from(before) + u64::from(more)).min(u64::from(u32::MAX)) as u32;
        tally.collections = sum(tally.collections, 1);
        tally.visits = sum(tally.visits, visits);
        Ok((kept, visits))
    }

    fn collect_stack(&self, words: &mut [u32], stack: &mut [u32]) -> Result<(u32, u32, u32), R> {
        let pool = Pool::decode(words)?;
        pool.require_well_formed()?;
        let Limited { enough, checks, .. } = pool.mark_with_words(stack.len(), |_, _| (), |_| ());
        let (kept, _) = self.collected(words)?;
        stack.fill(0);
        Ok((kept, u32::from(enough), checks))
    }

    fn worst_case(&self, words: &mut [u32]) -> Result<u32, R> {
        let n = cells_for(words.len())?.0 as u32;
        let link = |to: u32| if to <= n { to } else { 0 };
        let cell = |i: u32| {
            let (left, right) = if i % 2 == 1 { (link(i + 2), link(i + 1)) } else { (0, 0) };
            Cell { state: PAIR, left, right, value: 0 }
        };
        let mut pool = Pool { head: 0, registers: [0; REGISTERS], cells: (1..=n).map(cell).collect() };
        pool.registers[0] = 1;
        pool.encode(words);
        Ok((n - 1) / 2)
    }

    fn collect_recursive(&self, words: &mut [u32]) -> Result<(u32, u32), R> {
        if Pool::decode(words)?.cells.len() > MOST_RECURSIVE {
            return Err(Cause::TooLarge.into());
        }
        self.collect(words)
    }

    fn save(&self, words: &mut [u32], scratch: &mut [u32], out: &mut [u8]) -> Result<usize, R> {
        let pool = Pool::decode(words)?;
        if scratch.len() < 2 * pool.cells.len() {
            return Err(Cause::Scratch.into());
        }
        pool.require_well_formed()?;
        scratch.fill(0);
        let image = pool.image();
        let place = out.get_mut(..image.len()).ok_or(Cause::Output)?;
        place.copy_from_slice(&image);
        Ok(image.len())
    }

    fn load(&self, words: &mut [u32], bytes: &[u8]) -> (Result<(), R>, usize) {
        match cells_for(words.len()).and_then(|(n, _)| parse(bytes, n)) {
            Ok((pool, end)) => {
                pool.encode(words);
                (Ok(()), end)
            }
            Err(cause) => (Err(cause.into()), bytes.len()),
        }
    }

    fn check_image(&self, bytes: &[u8], n: u32) -> Result<(), R> {
        parse(bytes, limited(n as usize)?)?;
        Ok(())
    }

    fn occupancy(&self, kept: u32, n: u32) -> Result<u32, R> {
        limited(n as usize)?;
        if kept > n {
            return Err(Cause::Kept.into());
        }
        // "The percent goes to the nearest whole number, and an exact half to the even one" (02, S-7). Each whole percent
        // is tried: p is as far from 100 * kept / n as p * n is from 100 * kept, counted in n-th parts. Of two that are
        // equally near, one is even.
        let distance = |p: u32| (100 * kept).abs_diff(p * n);
        let nearest = (0..=100).min_by_key(|&p| (distance(p), p % 2));
        Ok(nearest.expect("there are whole percents"))
    }
}
