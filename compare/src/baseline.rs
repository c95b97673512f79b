//! A second implementation, in plain Rust, with the algorithms of the source documents working in place on the words:
//! marking by link reversal, marking with a lent stack, recursive marking. The tests compare it with the model, so
//! that the comparisons run without the library too, and it is the benchmark's baseline.

use crate::refusal::*;
use crate::visit::{Case, Marking};
use crate::{
    cell_at, is_used, words_for, Interface, Tally, CELL, FREE, HEADER, MOST_CELLS, MOST_RECURSIVE, PAIR, POINT,
    REGISTERS,
};
use std::cmp::Ordering;

#[derive(Clone, Copy, Debug, Default)]
pub struct PlainRust;

/// State of a marked pair.
pub const MARKED: u32 = 3;
/// State of a marked point.
pub const MARKED_POINT: u32 = POINT + 1;
/// The virtual root: no cell.
const ROOT: u32 = u32::MAX;

const STATE: usize = 0;
const LEFT: usize = 1;
const RIGHT: usize = 2;
const VALUE: usize = 3;
const HEAD: usize = 1;
const REGISTER_0: usize = 2;

/// N by the length: up to three words behind the cells are left over.
fn size_of_length(len: usize) -> Result<u32, u32> {
    if len < words_for(1) || len >= words_for(MOST_CELLS + 1) {
        return Err(SIZE);
    }
    Ok(((len - HEADER) / CELL) as u32)
}

fn size(words: &[u32]) -> Result<u32, u32> {
    let n = size_of_length(words.len())?;
    if words[0] == n {
        Ok(n)
    } else {
        Err(SIZE)
    }
}

fn registers_valid(highest: u32) -> Result<(), u32> {
    if (highest as usize) < REGISTERS {
        Ok(())
    } else {
        Err(REGISTER)
    }
}

fn valid_link(words: &[u32], n: u32, link: u32) -> bool {
    link == 0 || (link <= n && is_used(words[cell_at(link)]))
}

fn read(words: &[u32], n: u32, register: u32) -> Result<u32, u32> {
    let link = words[REGISTER_0 + register as usize];
    if valid_link(words, n, link) {
        Ok(link)
    } else {
        Err(MALFORMED)
    }
}

fn held(words: &[u32], n: u32, register: u32) -> Result<usize, u32> {
    match read(words, n, register)? {
        0 => Err(NIL),
        link => Ok(cell_at(link)),
    }
}

/// The cell in this register, which has to be of this state.
fn held_of(words: &[u32], n: u32, state: u32, register: u32) -> Result<usize, u32> {
    let at = held(words, n, register)?;
    if words[at] == state {
        Ok(at)
    } else {
        Err(KIND)
    }
}

fn well_formed(words: &[u32], n: u32) -> Result<(), u32> {
    for &link in &words[REGISTER_0..HEADER] {
        if !valid_link(words, n, link) {
            return Err(MALFORMED);
        }
    }
    for cell in words[HEADER..].chunks_exact(CELL) {
        let fine = match cell[STATE] {
            PAIR => valid_link(words, n, cell[LEFT]) && valid_link(words, n, cell[RIGHT]),
            FREE | POINT => true,
            _ => false,
        };
        if !fine {
            return Err(MALFORMED);
        }
    }
    Ok(())
}

fn unmarked(words: &[u32], link: u32) -> bool {
    link != 0 && is_used(words[cell_at(link)])
}

/// Is a used cell of this state a point, marked or not?
pub fn is_point(state: u32) -> bool {
    state == POINT || state == MARKED_POINT
}

/// Mark a cell that is used; it may be marked already.
pub fn mark(words: &mut [u32], link: u32) {
    let state = &mut words[cell_at(link)];
    *state = if is_point(*state) { MARKED_POINT } else { MARKED };
}

/// Left and right of a cell that is used, marked or not: a point is a cell with two nil links.
pub fn links(words: &[u32], link: u32) -> (u32, u32) {
    let at = cell_at(link);
    if is_point(words[at]) {
        (0, 0)
    } else {
        (words[at + LEFT], words[at + RIGHT])
    }
}

/// The cell in hand p, its predecessor q, and the words of p: its mark m and what stands in its links l and r.
#[derive(Clone, Copy)]
struct Hand {
    p: u32,
    q: u32,
    m: u32,
    l: u32,
    r: u32,
}

impl Hand {
    #[inline]
    fn take(words: &[u32], p: u32, q: u32) -> Hand {
        let at = cell_at(p);
        Hand { p, q, m: words[at + STATE], l: words[at + LEFT], r: words[at + RIGHT] }
    }

    /// The case of a visit. At the third one nothing of l is read: it may be the virtual root.
    #[inline]
    fn case(self, words: &[u32]) -> Case {
        match self.m {
            1 if unmarked(words, self.l) => Case::FollowLeft,
            1 => Case::PassLeft,
            2 if unmarked(words, self.l) => Case::FollowRight,
            2 => Case::PassRight,
            MARKED_POINT => Case::Point,
            _ => Case::Retreat,
        }
    }

    /// What a case does: in 1, 2 and 4 p, l, r, q become l, r, q, p; in 3 and 5 l, r, q become r, q, l; at a point p, q become q,
    /// p. Where another cell comes in hand, m, l and r are still those of the one that was.
    #[inline]
    fn exchange(self, case: Case) -> Hand {
        let Hand { p, q, m, l, r } = self;
        match case {
            // 1. Back to the predecessor, with both links as they were.
            Case::Retreat => Hand { p: l, l: r, r: q, q: p, m },
            // 2. To the left cell, which is unmarked.
            Case::FollowLeft => Hand { p: l, l: r, r: q, q: p, m },
            // 3. The left link is marked or nil: the cell stays in hand.
            Case::PassLeft => Hand { p, l: r, r: q, q: l, m },
            // 4. To the right cell, which is unmarked.
            Case::FollowRight => Hand { p: l, l: r, r: q, q: p, m },
            // 5. The right link is marked or nil: the cell stays in hand.
            Case::PassRight => Hand { p, l: r, r: q, q: l, m },
            // A point: back to the predecessor, and its numbers stay.
            Case::Point => Hand { p: q, q: p, l, r, m },
        }
    }

    /// One visit: the mark of a pair goes from 0 to 3, that of a point from 5 to 6. It is written before the next link is looked
    /// at, which may lead to the cell itself.
    #[inline]
    fn visit(mut self, words: &mut [u32]) -> (Case, Hand) {
        self.m += 1;
        words[cell_at(self.p) + STATE] = self.m;
        let case = self.case(words);
        (case, self.exchange(case))
    }
}

/// Mark by link reversal from every register; answers the visits. A pair is visited again while it stays in hand, so that
/// its links are read and written once for up to three visits.
fn mark_by_reversal(words: &mut [u32]) -> u32 {
    let mut visits = 0;
    for register in REGISTER_0..HEADER {
        if !unmarked(words, words[register]) {
            continue;
        }
        let (mut p, mut q) = (words[register], ROOT);
        while p != ROOT {
            let (_, mut hand) = Hand::take(words, p, q).visit(words);
            visits += 1;
            if hand.p == p {
                (_, hand) = hand.visit(words);
                visits += 1;
            }
            if hand.p == p {
                (_, hand) = hand.visit(words);
                visits += 1;
            }
            let at = cell_at(p);
            words[at + LEFT] = hand.l;
            words[at + RIGHT] = hand.r;
            (p, q) = (hand.p, hand.q);
        }
    }
    visits
}

/// Mark from an entry for as long as one way alone goes on: one link is unmarked, or two equal ones. Answers the cell where two
/// different links are unmarked, and 0 where both are marked or nil.
fn walk(words: &mut [u32], mut node: u32) -> u32 {
    loop {
        let (l, r) = links(words, node);
        if unmarked(words, l) {
            if r != l && unmarked(words, r) {
                return node;
            }
            node = l;
        } else if unmarked(words, r) {
            node = r;
        } else {
            return 0;
        }
        mark(words, node);
    }
}

/// Walk from every entry, from top to bottom, and close the gaps of those that are dropped. Answers how many are left.
fn check(words: &mut [u32], entries: &mut [u32]) -> usize {
    for entry in entries.iter_mut().rev() {
        *entry = walk(words, *entry);
    }
    let mut height = 0;
    for place in 0..entries.len() {
        let entry = entries[place];
        entries[height] = entry;
        height += usize::from(entry != 0);
    }
    height
}

/// Mark by Algorithm 2 of source document 003. Where the stack is full, its entries are checked, or with `CHECKED` false that is
/// the end. Answers whether the stack was enough, and the checks.
fn mark_with_stack<const CHECKED: bool>(words: &mut [u32], stack: &mut [u32]) -> (bool, u32) {
    let mut checks = 0;
    for register in REGISTER_0..HEADER {
        let mut node = words[register];
        if !unmarked(words, node) {
            continue;
        }
        mark(words, node);
        let mut height = 0;
        loop {
            let (l, r) = links(words, node);
            if unmarked(words, l) {
                // Two equal unmarked links are one.
                if r != l && unmarked(words, r) {
                    mark(words, r);
                    if height == stack.len() {
                        if !CHECKED {
                            return (false, 0);
                        }
                        // A check finds both links marked.
                        mark(words, l);
                        checks += 1;
                        height = check(words, stack);
                        if height == stack.len() {
                            return (false, checks);
                        }
                    }
                    stack[height] = r;
                    height += 1;
                }
                node = l;
            } else if unmarked(words, r) {
                node = r;
            } else if height > 0 {
                height -= 1;
                node = stack[height];
                continue;
            } else {
                break;
            }
            mark(words, node);
        }
    }
    (true, checks)
}

/// Collect with a lent stack, with checks or without; answers kept, enough and the checks.
fn collect_with_stack<const CHECKED: bool>(words: &mut [u32], stack: &mut [u32]) -> Result<(u32, u32, u32), u32> {
    let n = size(words)?;
    well_formed(words, n)?;
    let (enough, checks) = mark_with_stack::<CHECKED>(words, stack);
    if !enough {
        for cell in words[HEADER..].chunks_exact_mut(CELL) {
            match cell[STATE] {
                MARKED => cell[STATE] = PAIR,
                MARKED_POINT => cell[STATE] = POINT,
                _ => {}
            }
        }
        mark_by_reversal(words);
    }
    stack.fill(0);
    Ok((sweep(words, n), u32::from(enough), checks))
}

/// The recursive procedure of source document 000; the depth left falls at each call. Answers the visits, three of a pair and one
/// of a point.
fn mark_recursively(words: &mut [u32], link: u32, depth: u32) -> u32 {
    assert!(depth > 0, "a chain of at most N cells has depth N");
    mark(words, link);
    let (l, r) = links(words, link);
    let mut visits = if is_point(words[cell_at(link)]) { 1 } else { 3 };
    if unmarked(words, l) {
        visits += mark_recursively(words, l, depth - 1);
    }
    if unmarked(words, r) {
        visits += mark_recursively(words, r, depth - 1);
    }
    visits
}

/// Free every unmarked cell and rebuild the ascending chain; answers the kept cells.
pub fn sweep(words: &mut [u32], n: u32) -> u32 {
    let (mut kept, mut next) = (0, 0);
    for i in (1..=n).rev() {
        let at = cell_at(i);
        match words[at] {
            MARKED => {
                words[at] = PAIR;
                kept += 1;
            }
            MARKED_POINT => {
                words[at] = POINT;
                kept += 1;
            }
            _ => {
                words[at..at + CELL].copy_from_slice(&[FREE, next, 0, 0]);
                next = i;
            }
        }
    }
    words[HEAD] = next;
    kept
}

fn collect_well_formed(words: &mut [u32], n: u32) -> (u32, u32) {
    let visits = mark_by_reversal(words);
    (sweep(words, n), visits)
}

fn follow(words: &mut [u32], r: u32, a: u32, side: usize) -> Result<(), u32> {
    let n = size(words)?;
    registers_valid(r.max(a))?;
    let link = words[held_of(words, n, PAIR, a)? + side];
    if !valid_link(words, n, link) {
        return Err(MALFORMED);
    }
    words[REGISTER_0 + r as usize] = link;
    Ok(())
}

fn relink(words: &mut [u32], a: u32, b: u32, side: usize) -> Result<(), u32> {
    let n = size(words)?;
    registers_valid(a.max(b))?;
    let link = read(words, n, b)?;
    let at = held_of(words, n, PAIR, a)?;
    words[at + side] = link;
    Ok(())
}

fn coordinate(words: &[u32], a: u32, side: usize) -> Result<u32, u32> {
    let n = size(words)?;
    registers_valid(a)?;
    Ok(words[held_of(words, n, POINT, a)? + side])
}

/// Register r gets the head cell with this content, where the registers that were to be read are sound; answers the visits.
fn allocate(words: &mut [u32], n: u32, r: u32, content: [u32; CELL]) -> Result<u32, u32> {
    let mut visits = 0;
    if words[HEAD] == 0 {
        well_formed(words, n)?;
        visits = collect_well_formed(words, n).1;
        if words[HEAD] == 0 {
            return Err(FULL);
        }
    }
    let head = words[HEAD];
    if head > n {
        return Err(MALFORMED);
    }
    let at = cell_at(head);
    if words[at] != FREE || words[at + LEFT] > n {
        return Err(MALFORMED);
    }
    words[HEAD] = words[at + LEFT];
    words[at..at + CELL].copy_from_slice(&content);
    words[REGISTER_0 + r as usize] = head;
    Ok(visits)
}

/// A reader laid over an image.
struct Reader<'a> {
    bytes: &'a [u8],
    at: usize,
}

impl Reader<'_> {
    fn number(&mut self) -> Result<u32, u32> {
        let mut number = 0;
        for place in 0..5 {
            let byte = *self.bytes.get(self.at).ok_or(TRUNCATED)?;
            self.at += 1;
            if place == 4 && byte > 0x0F {
                return Err(OUT_OF_RANGE);
            }
            if place > 0 && byte == 0 {
                return Err(PADDED);
            }
            number |= u32::from(byte & 0x7F) << (7 * place);
            if byte < 0x80 {
                break;
            }
        }
        Ok(number)
    }

    fn link(&mut self, k: u32) -> Result<u32, u32> {
        let link = self.number()?;
        if link <= k {
            Ok(link)
        } else {
            Err(LINK_RANGE)
        }
    }
}

/// Check an image for `n` cells; answers where it ends.
fn validate(bytes: &[u8], n: u32) -> Result<usize, u32> {
    let mut reader = Reader { bytes, at: 0 };
    let k = reader.number()?;
    if k > n {
        return Err(TOO_MANY_CELLS);
    }
    for _ in 0..REGISTERS {
        reader.link(k)?;
    }
    for _ in 0..k {
        match reader.number()? {
            0 => {
                reader.link(k)?;
                reader.link(k)?;
            }
            1 => {
                reader.number()?;
                reader.number()?;
            }
            _ => return Err(KIND_NUMBER),
        }
        reader.number()?;
    }
    Ok(reader.at)
}

/// Write a number, or only count its bytes.
fn write(out: &mut Option<&mut [u8]>, at: &mut usize, mut number: u32) {
    loop {
        let more = number > 0x7F;
        if let Some(out) = out {
            out[*at] = (number & 0x7F) as u8 | if more { 0x80 } else { 0 };
        }
        *at += 1;
        number >>= 7;
        if !more {
            return;
        }
    }
}

/// Write the image of the first `count` cells of `order`, or only count its bytes.
fn write_image(words: &[u32], numbers: &[u32], order: &[u32], mut out: Option<&mut [u8]>) -> usize {
    let renumber = |link: u32| if link == 0 { 0 } else { numbers[link as usize - 1] };
    let mut at = 0;
    write(&mut out, &mut at, order.len() as u32);
    for &link in &words[REGISTER_0..HEADER] {
        write(&mut out, &mut at, renumber(link));
    }
    for &i in order {
        let cell = &words[cell_at(i)..][..CELL];
        let numbers = match cell[STATE] {
            POINT => [1, cell[LEFT], cell[RIGHT], cell[VALUE]],
            _ => [0, renumber(cell[LEFT]), renumber(cell[RIGHT]), cell[VALUE]],
        };
        numbers.into_iter().for_each(|number| write(&mut out, &mut at, number));
    }
    at
}

/// Number the reached cells: `numbers` by cell, `order` by number. The top end of `order` holds the pending cells.
fn number_cells(words: &[u32], numbers: &mut [u32], order: &mut [u32]) -> usize {
    let mut count = 0;
    for &register in &words[REGISTER_0..HEADER] {
        let mut current = register;
        let mut pending = order.len();
        loop {
            if current != 0 && numbers[current as usize - 1] == 0 {
                count += 1;
                numbers[current as usize - 1] = count as u32;
                pending -= 1;
                order[pending] = current;
                (current, _) = links(words, current);
            } else if pending < order.len() {
                (_, current) = links(words, order[pending]);
                pending += 1;
            } else {
                break;
            }
        }
    }
    for i in 1..=numbers.len() {
        if numbers[i - 1] != 0 {
            order[numbers[i - 1] as usize - 1] = i as u32;
        }
    }
    count
}

impl PlainRust {
    /// As `collect_stack` without checks: where the stack is full, link reversal does the work. Answers kept and enough.
    pub fn collect_stack_unchecked(words: &mut [u32], stack: &mut [u32]) -> Result<(u32, u32), u32> {
        collect_with_stack::<false>(words, stack).map(|(kept, enough, _)| (kept, enough))
    }

    /// Mark a well-formed pool by link reversal, one visit after the other, and tell the visits.
    pub fn mark_by_cases(words: &mut [u32]) -> Result<Marking, u32> {
        let n = size(words)?;
        well_formed(words, n)?;
        let mut told = Marking::default();
        for register in REGISTER_0..HEADER {
            if !unmarked(words, words[register]) {
                continue;
            }
            told.runs += 1;
            let (mut p, mut q) = (words[register], ROOT);
            while p != ROOT {
                let (case, hand) = Hand::take(words, p, q).visit(words);
                told.times[case as usize - 1] += 1;
                told.cases.push(case);
                if let Case::FollowLeft | Case::FollowRight = case {
                    told.entered.push(hand.p);
                }
                let at = cell_at(p);
                words[at + LEFT] = hand.l;
                words[at + RIGHT] = hand.r;
                (p, q) = (hand.p, hand.q);
            }
        }
        Ok(told)
    }
}

impl Interface for PlainRust {
    fn fresh(&self, words: &mut [u32]) -> Result<(u32, u32), u32> {
        let n = size_of_length(words.len())?;
        let (pool, leftover) = words.split_at_mut(words_for(n as usize));
        pool[0] = n;
        pool[REGISTER_0..HEADER].fill(0);
        pool[HEADER..].fill(FREE);
        sweep(pool, n);
        Ok((n, leftover.len() as u32))
    }

    fn copy(&self, words: &mut [u32], r: u32, a: u32) -> Result<(), u32> {
        let n = size(words)?;
        registers_valid(r.max(a))?;
        words[REGISTER_0 + r as usize] = read(words, n, a)?;
        Ok(())
    }

    fn clear(&self, words: &mut [u32], r: u32) -> Result<(), u32> {
        size(words)?;
        registers_valid(r)?;
        words[REGISTER_0 + r as usize] = 0;
        Ok(())
    }

    fn new_cell(&self, words: &mut [u32], r: u32, a: u32, b: u32, v: u32) -> Result<u32, u32> {
        let n = size(words)?;
        registers_valid(r.max(a).max(b))?;
        let left = read(words, n, a)?;
        let right = read(words, n, b)?;
        allocate(words, n, r, [PAIR, left, right, v])
    }

    fn point(&self, words: &mut [u32], r: u32, v: u32, x: u32, y: u32) -> Result<u32, u32> {
        let n = size(words)?;
        registers_valid(r)?;
        allocate(words, n, r, [POINT, x, y, v])
    }

    fn left(&self, words: &mut [u32], r: u32, a: u32) -> Result<(), u32> {
        follow(words, r, a, LEFT)
    }

    fn right(&self, words: &mut [u32], r: u32, a: u32) -> Result<(), u32> {
        follow(words, r, a, RIGHT)
    }

    fn setleft(&self, words: &mut [u32], a: u32, b: u32) -> Result<(), u32> {
        relink(words, a, b, LEFT)
    }

    fn setright(&self, words: &mut [u32], a: u32, b: u32) -> Result<(), u32> {
        relink(words, a, b, RIGHT)
    }

    fn setvalue(&self, words: &mut [u32], a: u32, v: u32) -> Result<(), u32> {
        let n = size(words)?;
        registers_valid(a)?;
        let at = held(words, n, a)?;
        words[at + VALUE] = v;
        Ok(())
    }

    fn value(&self, words: &mut [u32], a: u32) -> Result<u32, u32> {
        let n = size(words)?;
        registers_valid(a)?;
        Ok(words[held(words, n, a)? + VALUE])
    }

    fn east(&self, words: &mut [u32], a: u32) -> Result<u32, u32> {
        coordinate(words, a, LEFT)
    }

    fn north(&self, words: &mut [u32], a: u32) -> Result<u32, u32> {
        coordinate(words, a, RIGHT)
    }

    fn same(&self, words: &mut [u32], a: u32, b: u32) -> Result<u32, u32> {
        let n = size(words)?;
        registers_valid(a.max(b))?;
        let first = read(words, n, a)?;
        Ok(u32::from(first == read(words, n, b)?))
    }

    fn collect(&self, words: &mut [u32]) -> Result<(u32, u32), u32> {
        let n = size(words)?;
        well_formed(words, n)?;
        Ok(collect_well_formed(words, n))
    }

    fn collect_tally(&self, words: &mut [u32], tally: &mut Tally) -> Result<(u32, u32), u32> {
        let (kept, visits) = self.collect(words)?;
        tally.collections = tally.collections.saturating_add(1);
        tally.visits = tally.visits.saturating_add(visits);
        Ok((kept, visits))
    }

    fn collect_stack(&self, words: &mut [u32], stack: &mut [u32]) -> Result<(u32, u32, u32), u32> {
        collect_with_stack::<true>(words, stack)
    }

    fn worst_case(&self, words: &mut [u32]) -> Result<u32, u32> {
        let n = size_of_length(words.len())?;
        words[..words_for(n as usize)].fill(0);
        words[0] = n;
        words[REGISTER_0] = 1;
        // From the end of the left links on.
        let mut next = 0;
        for i in (1..=n).rev().filter(|i| i % 2 == 1) {
            let at = cell_at(i);
            words[at + LEFT] = next;
            words[at + RIGHT] = if i < n { i + 1 } else { 0 };
            next = i;
        }
        Ok((n - 1) / 2)
    }

    fn collect_recursive(&self, words: &mut [u32]) -> Result<(u32, u32), u32> {
        let n = size(words)?;
        if n as usize > MOST_RECURSIVE {
            return Err(TOO_LARGE);
        }
        well_formed(words, n)?;
        let mut visits = 0;
        for register in REGISTER_0..HEADER {
            if unmarked(words, words[register]) {
                visits += mark_recursively(words, words[register], n);
            }
        }
        Ok((sweep(words, n), visits))
    }

    fn save(&self, words: &mut [u32], scratch: &mut [u32], out: &mut [u8]) -> Result<usize, u32> {
        let n = size(words)?;
        if scratch.len() < 2 * n as usize {
            return Err(NO_ROOM);
        }
        well_formed(words, n)?;
        scratch.fill(0);
        let (numbers, rest) = scratch.split_at_mut(n as usize);
        let order = &mut rest[..n as usize];
        let count = number_cells(words, numbers, order);
        let bytes = write_image(words, numbers, &order[..count], None);
        let fits = bytes <= out.len();
        if fits {
            write_image(words, numbers, &order[..count], Some(out));
        }
        scratch.fill(0);
        if fits {
            Ok(bytes)
        } else {
            Err(NO_ROOM)
        }
    }

    fn load(&self, words: &mut [u32], bytes: &[u8]) -> (Result<(), u32>, usize) {
        let checked = size_of_length(words.len()).and_then(|n| Ok((n, validate(bytes, n)?)));
        let (n, end) = match checked {
            Ok(checked) => checked,
            Err(refusal) => return (Err(refusal), bytes.len()),
        };
        let mut reader = Reader { bytes, at: 0 };
        let mut next = || reader.number().unwrap_or(0);
        words[0] = n;
        let k = next();
        for register in &mut words[REGISTER_0..HEADER] {
            *register = next();
        }
        for i in 1..=n {
            let at = cell_at(i);
            words[at] = FREE;
            if i <= k {
                words[at] = if next() == 0 { MARKED } else { MARKED_POINT };
                words[at + LEFT] = next();
                words[at + RIGHT] = next();
                words[at + VALUE] = next();
            }
        }
        sweep(words, n);
        (Ok(()), end)
    }

    fn check_image(&self, bytes: &[u8], n: u32) -> Result<(), u32> {
        if n < 1 || n as usize > MOST_CELLS {
            return Err(SIZE);
        }
        validate(bytes, n).map(|_| ())
    }

    fn occupancy(&self, kept: u32, n: u32) -> Result<u32, u32> {
        if n < 1 || n as usize > MOST_CELLS || kept > n {
            return Err(SIZE);
        }
        let (percent, rest) = (100 * kept / n, 100 * kept % n);
        // To the nearest whole number, and a half to the even one.
        Ok(match (2 * rest).cmp(&n) {
            Ordering::Less => percent,
            Ordering::Equal => percent + percent % 2,
            Ordering::Greater => percent + 1,
        })
    }
}
