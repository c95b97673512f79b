//! Random calls, words and images, and graphs of known shape.

use crate::baseline::PlainRust;
use crate::model::{groups, Cell, Pool};
use crate::random::Random;
use crate::refusal::FULL;
use crate::script::line;
use crate::{
    apply, cell_at, is_used, words_for, Answer, Call, Interface, CELL, FREE, HEADER, MOST_CELLS, PAIR, POINT, REGISTERS,
};

/// A register number: mostly one of the first few, seldom one that is refused.
fn register(random: &mut Random, among: usize) -> u32 {
    if random.once_in(60) {
        random.pick(&[16, 17, 31, 255, 65_536, u32::MAX])
    } else {
        random.below(among) as u32
    }
}

pub fn value(random: &mut Random) -> u32 {
    match random.below(4) {
        0 => random.below(4) as u32,
        1 => random.pick(&[0, 127, 128, 300, 16_383, 16_384, 2_097_151, 2_097_152, 268_435_455, 268_435_456, u32::MAX]),
        2 => random.word() >> random.below(32),
        _ => random.word(),
    }
}

/// An x or y of a point, beside `n` cells: often as a link looks, a small number up to N or the one behind it, else any.
pub fn coordinate(random: &mut Random, n: usize) -> u32 {
    match random.below(6) {
        0..=2 => random.below(n + 1) as u32,
        3 => n as u32 + 1,
        4 => value(random),
        _ => random.word(),
    }
}

/// How many points come to a hundred used cells: none, all, and every number between.
pub fn share_of_points(random: &mut Random) -> usize {
    match random.below(8) {
        0..=2 => 0,
        3 => 100,
        _ => random.between(1, 99),
    }
}

/// State, x and y of a point beside `n` cells.
pub fn point(random: &mut Random, n: usize) -> [u32; 3] {
    [POINT, coordinate(random, n), coordinate(random, n)]
}

/// Every pair that `may_be` one becomes a point, so many of a hundred.
fn make_points(random: &mut Random, words: &mut [u32], share: usize, may_be: impl Fn(&[u32]) -> bool) {
    let n = (words.len() - HEADER) / CELL;
    for cell in words[HEADER..].chunks_exact_mut(CELL) {
        if cell[0] == PAIR && may_be(cell) && random.below(100) < share {
            cell[..3].copy_from_slice(&point(random, n));
        }
    }
}

/// Some pairs become points, at any rate: any pairs, or those without links.
pub fn with_points(random: &mut Random, mut words: Vec<u32>) -> Vec<u32> {
    let (share, any) = (share_of_points(random), random.once_in(2));
    make_points(random, &mut words, share, |cell| any || cell[1..3] == [0, 0]);
    words
}

/// Every pair without links becomes a point.
pub fn leaves_as_points(random: &mut Random, mut words: Vec<u32>) -> Vec<u32> {
    make_points(random, &mut words, 100, |cell| cell[1..3] == [0, 0]);
    words
}

/// How lists of calls are made: on how many registers, how much oftener a cell is made than another call, and how many of a hundred
/// such cells are points.
#[derive(Clone, Copy)]
pub struct Mix {
    among: usize,
    weight: usize,
    points: usize,
}

impl Mix {
    pub fn new(random: &mut Random) -> Mix {
        Mix {
            among: random.pick(&[1, 2, 3, 4, 8, REGISTERS]),
            weight: random.pick(&[3, 8, 20]),
            points: share_of_points(random),
        }
    }
}

/// One call of such a list.
pub fn call(random: &mut Random, mix: Mix) -> Call {
    let mut one = || register(random, mix.among);
    let (r, a, b) = (one(), one(), one());
    let v = value(random);
    match random.below(13 + mix.weight) {
        0 | 10 => Call::Copy { r, a },
        1 => Call::Clear { r },
        2 => Call::Left { r, a },
        3 => Call::Right { r, a },
        4 => Call::SetLeft { a, b },
        5 => Call::SetRight { a, b },
        6 => Call::SetValue { a, v },
        7 => Call::Value { a },
        8 => Call::Same { a, b },
        9 => {
            if random.once_in(4) {
                Call::Collect
            } else {
                Call::Clear { r }
            }
        }
        11 => Call::East { a },
        12 => Call::North { a },
        _ if random.below(100) < mix.points => {
            let (x, y) = (coordinate(random, 8), coordinate(random, 8));
            Call::Point { r, v, x, y }
        }
        _ => Call::New { r, a, b, v },
    }
}

pub fn calls(random: &mut Random, count: usize) -> Vec<Call> {
    let mix = Mix::new(random);
    (0..count).map(|_| call(random, mix)).collect()
}

/// A number of cells: mostly small, and every one possible.
pub fn cells(random: &mut Random) -> usize {
    match random.below(40) {
        0..=22 => random.between(1, 8),
        23..=34 => random.between(1, 40),
        35 | 36 => random.between(60, 70),
        37 => random.between(1, 200),
        _ => random.between(1, MOST_CELLS),
    }
}

/// So many words left over behind a pool of `n` cells: any numbers, or as one more cell begins.
pub fn leftover(random: &mut Random, n: usize, count: usize) -> Vec<u32> {
    let any = random.once_in(2);
    let mut word = |place: usize| match place {
        _ if any => random.word(),
        0 => random.pick(&[PAIR, FREE, POINT]),
        _ => random.below(n + 2) as u32,
    };
    (0..count).map(&mut word).collect()
}

/// The words of a pool, with none to three left over behind them.
pub fn with_leftover(random: &mut Random, mut words: Vec<u32>) -> Vec<u32> {
    let (n, count) = ((words.len() - HEADER) / CELL, random.below(CELL));
    words.extend(leftover(random, n, count));
    words
}

/// Words for a pool of `n` cells, all of them 0, and none to three left over.
pub fn blank(random: &mut Random, n: usize) -> Vec<u32> {
    with_leftover(random, vec![0; words_for(n)])
}

/// Words for a pool of `n` cells with every word random, those left over too.
pub fn noise(random: &mut Random, n: usize) -> Vec<u32> {
    (0..words_for(n) + random.below(CELL)).map(|_| random.word()).collect()
}

/// A well-formed pool: random used cells, points among them at any rate, valid links, any content of the free cells, and a head of
/// several kinds.
pub fn well_formed(random: &mut Random, n: usize) -> Vec<u32> {
    let share = random.pick(&[0, 1, 2, 5, 9, 10, 10]);
    let is_used: Vec<bool> = (0..n).map(|_| random.below(10) < share).collect();
    let used: Vec<u32> = (1..=n as u32).filter(|&i| is_used[i as usize - 1]).collect();
    let (nils, points) = (random.pick(&[1, 3, 8]), share_of_points(random));
    let link = |random: &mut Random| {
        if used.is_empty() || random.once_in(1 + nils) {
            0
        } else {
            random.pick(&used)
        }
    };
    let mut words = blank(random, n);
    words[0] = n as u32;
    let held = random.pick(&[0, 1, 2, 4, 8, REGISTERS, 2 * REGISTERS]);
    for _ in 0..held {
        let register = random.below(REGISTERS);
        words[2 + register] = link(random);
    }
    for _ in 0..random.below(4) {
        words[2 + random.below(4)] = words[2 + random.below(REGISTERS)];
    }
    for i in 1..=n as u32 {
        let at = cell_at(i);
        if is_used[i as usize - 1] {
            let left = link(random);
            let right = if random.once_in(4) { left } else { link(random) };
            words[at..at + CELL].copy_from_slice(&[PAIR, left, right, value(random)]);
        } else {
            let left = if random.once_in(8) { random.word() } else { random.below(n + 1) as u32 };
            words[at..at + CELL].copy_from_slice(&[FREE, left, value(random), value(random)]);
        }
    }
    make_points(random, &mut words, points, |_| true);
    words[1] = match random.below(5) {
        0 => 0,
        1 => random.below(n + 2) as u32,
        2 => random.pick(&[1, n as u32, n as u32 + 1, u32::MAX]),
        _ => is_used.iter().position(|used| !used).map_or(0, |place| place as u32 + 1),
    };
    words
}

/// Well-formed pools of many kinds: so many random ones, and then graphs of known shape.
pub fn well_formed_pools(random: &mut Random, count: usize) -> impl Iterator<Item = Vec<u32>> + '_ {
    let known = SHAPES.into_iter().flat_map(|shape| [1, 2, 7, 64, 500].map(|n| Some((shape, n))));
    (0..count).map(|_| None).chain(known).map(|known| match known {
        Some((shape, n)) => {
            let words = shape.words(n, random);
            let words = with_points(random, words);
            with_leftover(random, words)
        }
        None => {
            let n = cells(random);
            if random.once_in(4) {
                branches(random, n)
            } else {
                well_formed(random, n)
            }
        }
    })
}

/// A pool that calls have made.
pub fn built_by_calls(random: &mut Random, n: usize) -> Vec<u32> {
    let mut words = blank(random, n);
    PlainRust.fresh(&mut words).expect("the length is right");
    let count = random.between(0, 4 * n.min(60));
    for call in calls(random, count) {
        apply(&PlainRust, &mut words, call);
    }
    words
}

/// The numbers from 1 to `n` in any order.
fn shuffled(random: &mut Random, n: usize) -> Vec<u32> {
    let mut numbers: Vec<u32> = (1..=n as u32).collect();
    for place in (1..n).rev() {
        numbers.swap(place, random.below(place + 1));
    }
    numbers
}

/// A well-formed pool to be compared by its plan, mostly a small one. Now and then all its values and coordinates are 0 or 1, so that
/// many cells are alike.
pub fn plan(random: &mut Random) -> Vec<u32> {
    let n = match random.below(200) {
        0 => random.between(1, MOST_CELLS),
        1..=20 => random.between(1, 200),
        _ => random.between(1, 12),
    };
    let mut words = match random.below(8) {
        0 | 1 => built_by_calls(random, n),
        2 => branches(random, n),
        3 => {
            let words = random.pick(&SHAPES).words(n, random);
            let words = with_points(random, words);
            with_leftover(random, words)
        }
        _ => well_formed(random, n),
    };
    // Seldom a plan without a cell.
    let used: Vec<u32> = (1..=n as u32).filter(|&i| is_used(words[cell_at(i)])).collect();
    if words[2..HEADER] == [0; REGISTERS] && !used.is_empty() && !random.once_in(8) {
        words[2 + random.below(REGISTERS)] = random.pick(&used);
    }
    if random.once_in(3) {
        for cell in words[HEADER..].chunks_exact_mut(CELL).filter(|cell| is_used(cell[0])) {
            cell[3] %= 2;
            if cell[0] == POINT {
                cell[1..3].iter_mut().for_each(|number| *number %= 2);
            }
        }
    }
    words
}

/// Another pool with the plan of a well-formed one: of any size that holds the kept cells, which have other numbers, with other garbage
/// that leads anywhere, the free cells in another order, and other words left over.
pub fn same_plan(random: &mut Random, words: &[u32]) -> Vec<u32> {
    let pool = Pool::decode(words).expect("the size is right");
    let kept: Vec<u32> = pool.reached().into_iter().collect();
    let least = kept.len().max(1);
    let n = match random.below(100) {
        0 => random.between(least, MOST_CELLS),
        1..=20 => least,
        21..=40 => pool.cells.len(),
        _ => random.between(least, MOST_CELLS.min(least + 12)),
    };
    // The first numbers are those of the kept cells, in the order of their old ones; then come those of garbage and of free cells.
    let numbers = shuffled(random, n);
    let (used, free) = numbers.split_at(random.between(kept.len(), n));
    let mut number = vec![0; pool.cells.len() + 1];
    kept.iter().zip(used).for_each(|(&old, &new)| number[old as usize] = new);
    let renumbered = |link: u32| number[link as usize];
    let mut made = Pool {
        head: free.first().copied().unwrap_or(0),
        registers: pool.registers.map(renumbered),
        cells: vec![Cell { state: FREE, left: 0, right: 0, value: 0 }; n],
    };
    let (points, any) = (share_of_points(random), random.once_in(2));
    for (place, &i) in used.iter().enumerate() {
        let mut link = || if random.once_in(3) { 0 } else { random.pick(used) };
        made.cells[i as usize - 1] = match kept.get(place).map(|&old| *pool.cell(old)) {
            Some(Cell { state: PAIR, left, right, value }) => {
                Cell { state: PAIR, left: renumbered(left), right: renumbered(right), value }
            }
            Some(cell) => cell,
            None => {
                let pair = [PAIR, link(), link()];
                let [state, left, right] = if random.below(100) < points { point(random, n) } else { pair };
                Cell { state, left, right, value: value(random) }
            }
        };
    }
    for (place, &i) in free.iter().enumerate() {
        let cell = &mut made.cells[i as usize - 1];
        cell.left = free.get(place + 1).copied().unwrap_or(0);
        if any {
            (cell.right, cell.value) = (value(random), value(random));
        }
    }
    if random.once_in(8) {
        made.head = random.below(n + 2) as u32;
    }
    let mut words = blank(random, n);
    made.encode(&mut words);
    words
}

/// What a near miss has changed: one word that the plan shows, or two words for each other.
#[derive(Clone, Copy, Debug, PartialEq, Eq, PartialOrd, Ord)]
pub enum Change {
    Register,
    Link,
    Value,
    /// One of the upper bits of a value.
    HighBit,
    X,
    Y,
    /// The numbers of a point are exchanged.
    XAndY,
    /// The links of a pair are exchanged.
    LeftAndRight,
    /// A pair is a point, or a point is a pair.
    Kind,
    /// One of several links to a cell leads to a copy of it.
    Copied,
}

/// A pool whose plan is nearly that of a well-formed one, and what was changed; none where the plan has no cell. By chance the plan
/// may be the same.
pub fn near_miss(random: &mut Random, words: &[u32]) -> Option<(Change, Vec<u32>)> {
    use Change::*;
    let pool = Pool::decode(words).expect("the size is right");
    let n = pool.n();
    let reached: Vec<u32> = pool.reached().into_iter().collect();
    let of = |state: u32| reached.iter().copied().filter(|&i| pool.cell(i).state == state).collect::<Vec<u32>>();
    let used: Vec<u32> = (1..=n).filter(|&i| is_used(pool.cell(i).state)).collect();
    let (pairs, points) = (of(PAIR), of(POINT));
    // The places of links that the plan shows, and of those among them that lead to a cell which another leads to as well.
    let links: Vec<usize> = pairs.iter().flat_map(|&i| [cell_at(i) + 1, cell_at(i) + 2]).collect();
    let mut leading = vec![0; n as usize + 1];
    let all = || (2..HEADER).chain(links.iter().copied());
    all().for_each(|at| leading[words[at] as usize] += 1);
    let shared: Vec<usize> = all().filter(|&at| words[at] != 0 && leading[words[at] as usize] > 1).collect();
    let spare: Vec<u32> = (1..=n).filter(|i| reached.binary_search(i).is_err()).collect();
    let mut changes = vec![];
    if !reached.is_empty() {
        changes.extend([Register, Value, HighBit, Kind]);
    }
    if !pairs.is_empty() {
        changes.extend([Link, Link, LeftAndRight]);
    }
    if !points.is_empty() {
        changes.extend([X, Y, XAndY]);
    }
    if !shared.is_empty() && (!spare.is_empty() || n < MOST_CELLS as u32) {
        changes.extend([Copied, Copied]);
    }
    if changes.is_empty() {
        return None;
    }
    let change = random.pick(&changes);
    let mut words = words.to_vec();
    let any = cell_at(random.pick(&reached));
    let mut link = || if random.once_in(4) { 0 } else { random.pick(&used) };
    match change {
        Register => {
            let to = link();
            words[2 + random.below(REGISTERS)] = to;
        }
        Link => {
            let to = link();
            words[random.pick(&links)] = to;
        }
        Value => words[any + 3] = value(random),
        HighBit => words[any + 3] ^= 1 << random.between(16, 31),
        X => words[cell_at(random.pick(&points)) + 1] = coordinate(random, n as usize),
        Y => words[cell_at(random.pick(&points)) + 2] = coordinate(random, n as usize),
        XAndY => {
            let at = cell_at(random.pick(&points));
            words.swap(at + 1, at + 2);
        }
        LeftAndRight => {
            let at = cell_at(random.pick(&pairs));
            words.swap(at + 1, at + 2);
        }
        Kind if words[any] == PAIR => words[any] = POINT,
        Kind => {
            words[any] = PAIR;
            // What is no link becomes nil.
            for number in &mut words[any + 1..any + 3] {
                if used.binary_search(number).is_err() {
                    *number = 0;
                }
            }
        }
        Copied => {
            let at = random.pick(&shared);
            let original = words[cell_at(words[at])..][..CELL].to_vec();
            let copy = if spare.is_empty() {
                // A cell more.
                words.splice(words_for(n as usize)..words_for(n as usize), [FREE; CELL]);
                words[0] = n + 1;
                n + 1
            } else {
                random.pick(&spare)
            };
            words[cell_at(copy)..][..CELL].copy_from_slice(&original);
            words[at] = copy;
        }
    }
    Some((change, words))
}

/// Two pools, with the same plan or nearly so, in either order; and what was changed, where something was.
pub fn two_plans(random: &mut Random) -> ([Vec<u32>; 2], Option<Change>) {
    let one = plan(random);
    let mut other = same_plan(random, &one);
    let mut changed = None;
    if !random.once_in(3) {
        if let Some((change, words)) = near_miss(random, &other) {
            (changed, other) = (Some(change), words);
        }
    }
    (if random.once_in(2) { [one, other] } else { [other, one] }, changed)
}

/// A list of so many reads: "copy, clear, left, right, value, east, north and same" (02, S-9), on any registers.
pub fn reads(random: &mut Random, count: usize) -> Vec<Call> {
    let among = random.pick(&[1, 2, 3, 4, 8, REGISTERS]);
    let read = |random: &mut Random| {
        let mut one = || register(random, among);
        let (r, a, b) = (one(), one(), one());
        match random.below(14) {
            0 | 1 => Call::Copy { r, a },
            2 => Call::Clear { r },
            3..=5 => Call::Left { r, a },
            6..=8 => Call::Right { r, a },
            9 | 10 => Call::Value { a },
            11 => Call::East { a },
            12 => Call::North { a },
            _ => Call::Same { a, b },
        }
    };
    (0..count).map(|_| read(random)).collect()
}

/// A well-formed pool whose register 0 holds its last cell, a pair or a point, with any value; without a cell where `n` is 0.
pub fn last_held(random: &mut Random, n: usize) -> Vec<u32> {
    let mut words = well_formed(random, n);
    if n > 0 {
        let (last, at) = (n as u32, cell_at(n as u32));
        words[2] = last;
        if !is_used(words[at]) {
            let pair = [PAIR, random.pick(&[0, last]), random.pick(&[0, last])];
            words[at..at + 3].copy_from_slice(&if random.once_in(2) { point(random, n) } else { pair });
        }
        words[at + 3] = random.word();
    }
    words
}

/// A comb for the stack marker, and where it ends a chain of equal links.
pub struct Comb {
    /// How many entries are held at once.
    pub entries: usize,
    /// How many of them, the first ones, lead to the last two cells, the same for each. The others are leaves.
    pub forks: usize,
    /// How many of a hundred leaves are points; the others have both links to themselves.
    pub points: usize,
    /// How many cells are used: at least 2 * `entries` + 1, with forks 2 more.
    pub used: usize,
}

/// A pool of `n` cells with such a left comb. The cells that are not used form the ascending chain, so that a collection keeps every
/// word. No word is left over.
pub fn comb_and_chain(random: &mut Random, comb: Comb, n: usize) -> Vec<u32> {
    let Comb { entries, forks, points, used } = comb;
    let mut words = Shape::EqualChain.words(used, random);
    let last = used as u32;
    for i in (1..2 * entries as u32).step_by(2) {
        words[cell_at(i) + 1..][..2].copy_from_slice(&[i + 2, i + 1]);
        let leaf = match i {
            _ if i < 2 * forks as u32 => [PAIR, last - 1, last],
            _ if random.below(100) < points => point(random, n),
            _ => [PAIR, i + 1, i + 1],
        };
        words[cell_at(i + 1)..][..3].copy_from_slice(&leaf);
    }
    words[0] = n as u32;
    words[1] = if used < n { used as u32 + 1 } else { 0 };
    for i in used + 1..=n {
        words.extend([FREE, if i < n { i as u32 + 1 } else { 0 }, 0, 0]);
    }
    words
}

/// A pool of `n` used cells for which the stack marker pushes often, and walks in its checks: chains over left links from one to
/// four registers, with a branch to the right of each cell. A branch goes on over up to three cells, each by one link or two equal
/// ones, and ends in a leaf, in two new cells, or with links to any. Leaves are points, at any rate.
pub fn branches(random: &mut Random, n: usize) -> Vec<u32> {
    let mut words = blank(random, n);
    words[0] = n as u32;
    words[2] = 1;
    let (mut last, mut runs, mut new) = (1, 1, 2..=n as u32);
    let link = |words: &mut [u32], cell: u32, left: u32, right: u32| {
        words[cell_at(cell) + 1..][..2].copy_from_slice(&[left, right]);
    };
    let often = random.pick(&[1, 2, 4]);
    while let Some(branch) = new.next() {
        let mut end = branch;
        for _ in 0..random.below(4) / often {
            let Some(cell) = new.next() else { break };
            let (left, right) = random.pick(&[(cell, 0), (0, cell), (cell, cell), (cell, last), (last, cell)]);
            link(&mut words, end, left, right);
            end = cell;
        }
        let (left, right) = (random.between(1, n) as u32, random.between(0, n) as u32);
        match random.below(4 * often) {
            0 => link(&mut words, end, new.next().unwrap_or(0), new.next().unwrap_or(0)),
            1 => link(&mut words, end, left, right),
            2 => link(&mut words, end, 0, left),
            _ => {}
        }
        let Some(next) = new.next() else {
            link(&mut words, last, branch, 0);
            break;
        };
        if runs < 4 && random.once_in(12) {
            link(&mut words, last, branch, 0);
            words[2 + runs] = next;
            runs += 1;
        } else {
            link(&mut words, last, next, branch);
        }
        last = next;
    }
    let share = share_of_points(random);
    make_points(random, &mut words, share, |cell| cell[1..3] == [0, 0]);
    words
}

/// Change one to three places so that the words may be malformed, or of a wrong size.
pub fn damage(random: &mut Random, words: &mut Vec<u32>) {
    let (n, length) = ((words.len() - HEADER) / CELL, words.len());
    for _ in 0..random.pick(&[1, 1, 2, 3]) {
        if words.len() != length {
            return;
        }
        // The first cell from this one on, and round, with such a state.
        let find = |first: u32, with: fn(u32) -> bool| {
            let from = |i: u32| (first - 1 + i) % n as u32 + 1;
            (0..n as u32).map(from).find(|&i| with(words[cell_at(i)]))
        };
        let not_used = find(random.between(1, n) as u32, |state| !is_used(state)).unwrap_or(0);
        let bad = |random: &mut Random| {
            let n = n as u32;
            let near = random.below(n as usize + 2) as u32;
            let other = random.pick(&[0, 1, n, n + 2, 4000, 4001, 1 << 30, 1 << 31, u32::MAX]);
            random.pick(&[near, not_used, not_used, n + 1, other])
        };
        let among = random.pick(&[2, 4, REGISTERS]);
        let register = 2 + random.below(among);
        // Any cell, or one that a register holds; for a link the next pair, where there is one.
        let held = words[register];
        let any = random.between(1, n) as u32;
        let cell = if (1..=n as u32).contains(&held) && !random.once_in(4) { held } else { any };
        let (pair, cell) = (cell_at(find(cell, |state| state == PAIR).unwrap_or(cell)), cell_at(cell));
        match random.below(14) {
            0 => words[0] = bad(random),
            1 => words[0] = (n as u32).wrapping_add(random.pick(&[1, 2, u32::MAX])),
            2 | 3 => words[1] = bad(random),
            4 | 5 => words[register] = bad(random),
            6 | 7 => words[cell] = random.pick(&[0, 1, 2, 3, 4, 5, 6, u32::MAX]),
            // A link, which also `new` and `point` judge where the head is 0.
            kind @ 8..=11 => {
                words[pair + kind / 2 - 3] = bad(random);
                if random.once_in(2) {
                    words[1] = 0;
                }
            }
            12 => {
                let place = random.below(words.len());
                words[place] = random.word();
            }
            _ => {
                let length = match random.below(12) {
                    0 | 1 => random.below(HEADER),
                    2 | 3 => words_for(0) + random.below(CELL),
                    4 | 5 => words_for(random.between(MOST_CELLS + 1, MOST_CELLS + 3)) + random.below(CELL),
                    _ => random.between(length - 5, length + 5),
                };
                words.resize(length, random.pick(&[0, FREE, 7]));
                if let (Some(word), true) = (words.first_mut(), random.once_in(2)) {
                    *word = (length.saturating_sub(HEADER) / CELL) as u32;
                }
            }
        }
    }
}

/// Words of any kind.
pub fn words(random: &mut Random) -> Vec<u32> {
    let n = cells(random);
    match random.below(11) {
        0 => {
            let mut words = noise(random, n);
            if !random.once_in(3) {
                words[0] = n as u32;
            }
            words
        }
        1 | 2 => built_by_calls(random, n),
        3 => {
            let words = random.pick(&SHAPES).words(n, random);
            let words = with_points(random, words);
            let mut words = with_leftover(random, words);
            words[2 + random.below(REGISTERS)] = random.between(1, n) as u32;
            words[2] = random.below(2) as u32;
            words
        }
        4 | 5 => well_formed(random, n),
        6 => branches(random, n),
        7 | 8 => {
            let mut words = built_by_calls(random, n);
            damage(random, &mut words);
            words
        }
        _ => {
            let mut words = well_formed(random, n);
            damage(random, &mut words);
            words
        }
    }
}

/// A number of an image that is no kind.
fn other_kind(random: &mut Random) -> u32 {
    random.pick(&[2, 3, 4, 5, 127, 128, 256, 257, 1 << 16, (1 << 16) + 1, 1 << 31, u32::MAX])
}

/// An image as it was written before 02, S-8: without kinds, three numbers a cell, and no byte behind it. The values are such as
/// would be kinds, links or coordinates, or any.
pub fn former_image(random: &mut Random, k: usize) -> Vec<u8> {
    let small = random.pick(&[1, 2, k, k]);
    let mut link = || random.below(small.min(k) + 1) as u32;
    let mut numbers = vec![k as u32];
    numbers.extend((0..REGISTERS).map(|_| link()));
    numbers.extend((0..3 * k).map(|_| link()));
    let values = random.below(5);
    for place in (1 + REGISTERS..numbers.len()).skip(2).step_by(3) {
        match values {
            0 => {}
            1 => numbers[place] = random.below(2) as u32,
            2 => numbers[place] = value(random),
            3 => numbers[place] = coordinate(random, k),
            _ => numbers[place] = 0,
        }
    }
    numbers.into_iter().flat_map(groups).collect()
}

/// The same number with groups of 0 behind its own, up to five groups in all; as it is where it has five.
fn padded(random: &mut Random, written: &[u8]) -> Vec<u8> {
    let mut longer = written.to_vec();
    if written.len() < 5 {
        longer[written.len() - 1] |= 0x80;
        longer.resize(random.between(written.len(), 4), 0x80);
        longer.push(0x00);
    }
    longer
}

/// An image with one number padded: K, a register, a kind, a left or x, a right or y, or a value.
pub fn padded_image(random: &mut Random, image: &[u8]) -> Vec<u8> {
    let mut numbers: Vec<Vec<u8>> = image.split_inclusive(|byte| byte & 0x80 == 0).map(<[u8]>::to_vec).collect();
    let cells = (numbers.len() - 1 - REGISTERS) / CELL;
    let place = match random.below(if cells == 0 { 2 } else { 6 }) {
        0 => 0,
        1 => random.between(1, REGISTERS),
        // A number of five groups cannot be padded: the kind of its cell is.
        part => {
            let kind = 1 + REGISTERS + CELL * random.below(cells);
            let number = kind + part - 2;
            if numbers[number].len() < 5 {
                number
            } else {
                kind
            }
        }
    };
    numbers[place] = padded(random, &numbers[place]);
    numbers.concat()
}

/// An image for about `n` cells, points among them at any rate: complete, cut, with more bytes behind it, with padded numbers, with
/// damaged bytes, with kinds that there are not, or with numbers too large.
pub fn image(random: &mut Random, n: usize) -> Vec<u8> {
    if random.once_in(12) {
        return (0..random.below(80)).map(|_| random.word() as u8 >> random.below(8)).collect();
    }
    let most = if random.once_in(10) { n + 2 } else { n };
    let k = random.between(0, most) as u32;
    let (faults, points) = (random.once_in(3), share_of_points(random));
    // About one fault in an image, also where it is long.
    let link = |random: &mut Random| {
        if faults && random.once_in(20.max(k as usize)) {
            k.wrapping_add(random.pick(&[1, 2, 1000, u32::MAX - 4000]))
        } else {
            random.below(k as usize + 1) as u32
        }
    };
    // Each number, and the most that it may be.
    let mut numbers = vec![(k, n as u32)];
    numbers.extend((0..REGISTERS).map(|_| (link(random), k)));
    for _ in 0..k {
        let is_point = random.below(100) < points;
        let fault = faults && random.once_in(20.max(k as usize));
        numbers.push((if fault { other_kind(random) } else { u32::from(is_point) }, 1));
        for _ in 0..2 {
            numbers.push(if is_point { (coordinate(random, k as usize), u32::MAX) } else { (link(random), k) });
        }
        numbers.push((value(random), u32::MAX));
    }
    // About one padded number in such an image, and half of those that are too large.
    let pads = random.once_in(4);
    let mut bytes = Vec::new();
    for &(number, most) in &numbers {
        let written = groups(number);
        if pads && random.once_in(if number > most { 2 } else { numbers.len() }) {
            bytes.extend(padded(random, &written));
        } else {
            bytes.extend(written);
        }
    }
    match random.below(8) {
        0 => bytes.truncate(random.below(bytes.len() + 1)),
        1 => {
            let more = random.between(1, 9);
            bytes.extend((0..more).map(|_| random.word() as u8));
        }
        2 | 3 => {
            for _ in 0..random.between(1, 3) {
                let place = random.below(bytes.len());
                let any = random.word() as u8;
                bytes[place] = random.pick(&[0x00, 0x01, 0x0F, 0x10, 0x7F, 0x80, 0x81, 0x8F, 0xFF, any]);
            }
        }
        4 => {
            let place = random.below(bytes.len());
            let large = random.pick(&[
                [0xFF, 0xFF, 0xFF, 0xFF, 0x0F],
                [0xFF, 0xFF, 0xFF, 0xFF, 0x10],
                [0x80, 0x80, 0x80, 0x80, 0x80],
                [0x80, 0x80, 0x80, 0x80, 0x00],
                [0x80, 0x80, 0x80, 0x80, 0x1F],
                [0xFF, 0xFF, 0xFF, 0xFF, 0x8F],
            ]);
            bytes.splice(place..place, large);
        }
        _ => {}
    }
    bytes
}

/// Change a line so that it is bad, most often.
fn spoil(random: &mut Random, line: &mut Vec<u8>) {
    let spaces: Vec<usize> = (0..line.len()).filter(|&place| line[place] == b' ').collect();
    let place = random.below(line.len() + 1);
    let byte = random.pick(b"\0\t\r +-.,09:/afgnzGNZx\x7F\x80\xA0\xFF");
    match random.below(13) {
        0 => line.clear(),
        1 => line.push(b'\r'),
        2 => line.push(b' '),
        3 => line.insert(0, b' '),
        // One number too few, one too many, or one too large.
        4 => line.truncate(spaces.last().copied().unwrap_or(0)),
        5 => line.extend(b" 0"),
        6 | 7 => {
            line.truncate(spaces.last().copied().unwrap_or(1));
            let large = [" 4294967296", " 0004294967296", " 5000000000", " 9999999999", " 18446744073709551616"];
            line.extend(random.pick(&large).as_bytes());
        }
        8 if !spaces.is_empty() => line.insert(random.pick(&spaces), b' '),
        9 if !spaces.is_empty() => line[random.pick(&spaces)] = byte,
        10 => line[0] = byte,
        11 => line.truncate(place),
        _ => line.insert(place, byte),
    }
}

/// A script of about so many lines: calls on small pools, bad lines, sizes that are refused, any end.
pub fn script(random: &mut Random, count: usize) -> Vec<u8> {
    let mut script = Vec::new();
    let mix = Mix::new(random);
    let bad = random.pick(&[2, 8, 40, 1_000]);
    let before = random.pick(&[0, 0, 1, 5]);
    for place in 0..count {
        let mut line = if place == before || random.once_in(60) {
            let n = if random.once_in(4) { random.pick(&[0, 4_001, 65_536, u32::MAX]) } else { cells(random) as u32 };
            format!("f {n}")
        } else {
            line(call(random, mix))
        };
        if random.once_in(20) {
            line = line.replace(' ', random.pick(&[" 0", " 00", " 0000000000000000000000"]));
        }
        let mut line = line.into_bytes();
        if random.once_in(bad) {
            spoil(random, &mut line);
        }
        script.extend(line);
        script.push(b'\n');
    }
    match random.below(4) {
        0 => script.truncate(random.below(script.len() + 1)),
        1 => {
            script.pop();
        }
        _ => {}
    }
    script
}

/// A script of so many lines on a pool of `n` cells: mostly accepted calls of every kind. The last four registers hold
/// lists that grow, and are now and then given up.
pub fn mixed_script(random: &mut Random, lines: usize, n: usize) -> String {
    let mut words = vec![0; words_for(n)];
    let mut script = format!("f {n}\n");
    PlainRust.fresh(&mut words).expect("the size is right");
    let mut count = 1;
    while count < lines {
        let mut below = |limit: usize| random.below(limit) as u32;
        let (r, a, b, list, v) = (below(12), below(12), below(12), 12 + below(4), below(100_000));
        let (x, y) = (below(100_000), below(100_000));
        let call = match random.below(100_000) {
            0..10 => Call::Collect,
            10..20 => Call::Clear { r: list },
            20..2_000 => Call::New { r: list, a: list, b: a, v },
            2_000..14_000 => Call::New { r, a, b, v },
            14_000..20_000 => Call::Point { r, v, x, y },
            20_000..30_000 => Call::Left { r, a },
            30_000..40_000 => Call::Right { r, a },
            40_000..47_000 => Call::SetLeft { a, b },
            47_000..54_000 => Call::SetRight { a, b },
            54_000..58_000 => Call::East { a },
            58_000..62_000 => Call::North { a },
            62_000..70_000 => Call::Value { a },
            70_000..74_000 => Call::Value { a: list },
            74_000..82_000 => Call::SetValue { a, v },
            82_000..88_000 => Call::Same { a, b },
            88_000..95_000 => Call::Copy { r, a },
            _ => Call::Clear { r },
        };
        let mut calls = vec![call];
        match apply(&PlainRust, &mut words, call).0 {
            // Give the cells back.
            Answer::Refused(FULL) => calls.extend((0..REGISTERS as u32).map(|r| Call::Clear { r })),
            // Few calls of a script are refused.
            Answer::Refused(_) if !random.once_in(20) => continue,
            _ => {}
        }
        for &call in &calls[1..] {
            apply(&PlainRust, &mut words, call);
        }
        for call in calls {
            if count < lines {
                script += &line(call);
                script.push('\n');
                count += 1;
            }
        }
    }
    script
}

/// A script of so many lines on a pool of `n` cells: mostly `new`, with at most sixteen cells live.
pub fn new_script(random: &mut Random, lines: usize, n: usize) -> String {
    let mut script = format!("f {n}\n");
    let nil = REGISTERS as u32 - 1;
    for _ in 1..lines {
        let r = random.below(REGISTERS - 1) as u32;
        let call = if random.once_in(10) {
            Call::Same { a: r, b: nil }
        } else {
            Call::New { r, a: nil, b: nil, v: random.below(100_000) as u32 }
        };
        script += &line(call);
        script.push('\n');
    }
    script
}

/// Graphs of the tables of source document 003, and two more.
#[derive(Clone, Copy, Debug, PartialEq, Eq)]
pub enum Shape {
    /// A complete binary tree.
    Balanced,
    /// Every left link leads to the next cell.
    LeftChain,
    /// Every right link leads to the next cell, every left link to the last one.
    RightChain,
    /// A left chain where every cell has two cells on its right side.
    PseudoChain,
    /// A left chain of half the cells, each with a leaf of its own on its right: the links of the worst case for the stack.
    LeftComb,
    /// Two rails: each cell has the next of its own rail and the one across.
    Ladder,
    /// Both links of every cell lead to the next.
    EqualChain,
    /// Every link leads to a random cell.
    Random,
}

pub const SHAPES: [Shape; 8] = [
    Shape::Balanced,
    Shape::LeftChain,
    Shape::RightChain,
    Shape::PseudoChain,
    Shape::LeftComb,
    Shape::Ladder,
    Shape::EqualChain,
    Shape::Random,
];

impl Shape {
    pub fn name(self) -> &'static str {
        match self {
            Shape::Balanced => "balanced tree",
            Shape::LeftChain => "left chain",
            Shape::RightChain => "revised (right) chain",
            Shape::PseudoChain => "pseudo chain",
            Shape::LeftComb => "left comb",
            Shape::Ladder => "ladder",
            Shape::EqualChain => "chain of equal links",
            Shape::Random => "random graph",
        }
    }

    /// Left and right of cell `i`, links above `n` standing for nil.
    fn links(self, i: usize, n: usize, random: &mut Random) -> (usize, usize) {
        match self {
            Shape::Balanced => (2 * i, 2 * i + 1),
            Shape::LeftChain => (i + 1, 0),
            Shape::RightChain => (if i < n { n } else { 0 }, i + 1),
            Shape::PseudoChain => match i % 3 {
                1 => (i + 3, i + 1),
                2 => (i + 1, 0),
                _ => (0, 0),
            },
            Shape::LeftComb => {
                if i % 2 == 1 {
                    (i + 2, i + 1)
                } else {
                    (0, 0)
                }
            }
            Shape::Ladder => {
                if i % 2 == 1 {
                    (i + 2, i + 1)
                } else {
                    (i + 2, 0)
                }
            }
            Shape::EqualChain => (i + 1, i + 1),
            Shape::Random => (random.between(1, n), random.between(1, n)),
        }
    }

    /// All `n` cells are pairs, register 0 holds cell 1. No word is left over.
    pub fn words(self, n: usize, random: &mut Random) -> Vec<u32> {
        let mut words = vec![0; words_for(n)];
        words[0] = n as u32;
        words[2] = 1;
        for i in 1..=n {
            let (left, right) = self.links(i, n, random);
            let link = |to: usize| if to <= n { to as u32 } else { 0 };
            let at = cell_at(i as u32);
            words[at..at + CELL].copy_from_slice(&[PAIR, link(left), link(right), value(random)]);
        }
        words
    }
}
