//! The program `trials` again: its pools made anew, and its totals computed by the model, have to give what it prints.

use cellpool_compare::model::{Model, Pool};
use cellpool_compare::refusal::{MALFORMED, TOO_LARGE};
use cellpool_compare::{cell_at, words_for, Interface, FREE, HEADER, MOST_RECURSIVE, PAIR, POINT};
use std::fmt::Write;

const SEEDS: u32 = 2184;
/// Counters of the numbers for a word of the pool, of those for the damage, of the one for the words behind the cells, of the one for the rate of points, and of those for the kinds.
const WORDS: u32 = 4096;
const DAMAGE: u32 = 9000;
const LEFTOVER: u32 = 9002;
const RATE: u32 = 9003;
const KIND: u32 = 30000;

fn mix(x: u32) -> u32 {
    let y = x.wrapping_mul(0x9E37_79B9);
    y ^ (y >> 15)
}

/// The k-th pseudo-random number of a seed.
fn draw(seed: u32, k: u32) -> u32 {
    mix(mix(mix(mix(seed).wrapping_add(k))))
}

struct Generator {
    n: u32,
    seed: u32,
}

impl Generator {
    fn new(seed: u32) -> Generator {
        const LARGE: [u32; 5] = [65, 100, 300, 1000, 4000];
        let step = seed / 32;
        let n = if step < 64 { step + 1 } else { LARGE[step as usize - 64] };
        Generator { n, seed }
    }

    fn cell(&self, x: u32) -> u32 {
        x % self.n + 1
    }

    fn is_used(&self, i: u32) -> bool {
        draw(self.seed, i) % 8 >= self.seed / 8 % 4
    }

    /// Of sixteen used cells none, 1, 2, 4, 8 or all are points.
    fn is_point(&self, i: u32) -> bool {
        const RATES: [u32; 8] = [0, 0, 0, 1, 2, 4, 8, 16];
        draw(self.seed, KIND + i) % 16 < RATES[draw(self.seed, RATE) as usize % 8]
    }

    fn is_pair(&self, i: u32) -> bool {
        self.is_used(i) && !self.is_point(i)
    }

    fn valid(&self, link: u32) -> u32 {
        if (1..=self.n).contains(&link) && self.is_used(link) {
            link
        } else {
            0
        }
    }

    fn register(&self, x: u32) -> u32 {
        let link = match x % 16 {
            _ if self.seed % 8 == 7 => 0,
            0 => self.cell(x / 16),
            1 => 1,
            2 => self.n,
            _ => 0,
        };
        self.valid(link)
    }

    /// The left link of cell i for side 1, the right one for side 2.
    fn link(&self, i: u32, side: u32, x: u32) -> u32 {
        let link = match self.seed % 8 {
            0 if x.is_multiple_of(4) => self.cell(x / 4),
            0 => 0,
            2 if side == 1 => i + 1,
            2 => 0,
            3 => i + 1,
            4 => i.saturating_sub(side),
            5 if x.is_multiple_of(2) => i,
            5 => self.cell(x / 2),
            6 => x % 3 + 1,
            _ => self.cell(x),
        };
        self.valid(link)
    }

    /// The number of words behind the cells.
    fn leftover(&self) -> u32 {
        draw(self.seed, LEFTOVER) % 4
    }

    fn well_formed(&self) -> Vec<u32> {
        let len = words_for(self.n as usize) + self.leftover() as usize;
        let random: Vec<u32> = (0..len as u32).map(|k| draw(self.seed, WORDS + k)).collect();
        let mut words = vec![self.n, random[1]];
        words.extend(random[2..HEADER].iter().map(|&x| self.register(x)));
        for i in 1..=self.n {
            let place = cell_at(i);
            let (left, right, value) = (random[place + 1], random[place + 2], random[place + 3]);
            if self.is_pair(i) {
                words.extend([PAIR, self.link(i, 1, left), self.link(i, 2, right), value]);
            } else {
                words.extend([if self.is_used(i) { POINT } else { FREE }, left, right, value]);
            }
        }
        words.extend(&random[words.len()..]);
        words
    }

    fn malformed(&self) -> Vec<u32> {
        let mut words = self.well_formed();
        let x = draw(self.seed, DAMAGE);
        let i = self.cell(draw(self.seed, DAMAGE + 1));
        let (register, part) = (2 + (x / 3 % 16) as usize, (x / 3 % 2) as usize);
        let past = self.n + 5 + x % 1000;
        match x % 3 {
            0 if self.is_used(i) => words[register] = past,
            0 => words[register] = i,
            1 if self.is_pair(i) => words[cell_at(i) + 1 + part] = past,
            1 => words[cell_at(i)] = past,
            _ => words[cell_at(i)] = 1 + x / 3 % 3,
        }
        words
    }
}

/// The answers of the model to every marker: reversal, recursive, and with stacks of no words, one word and n words. The third number
/// is that of the checks, which the first two do not make.
fn answers(words: &[u32], n: usize) -> [Result<(u32, u32, u32), u32>; 5] {
    let without = |answer: Result<(u32, u32), u32>| answer.map(|(kept, visits)| (kept, visits, 0));
    let stack = |len: usize| Model.collect_stack(&mut words.to_vec(), &mut vec![7; len]);
    [
        without(Model.collect(&mut words.to_vec())),
        without(Model.collect_recursive(&mut words.to_vec())),
        stack(0),
        stack(1),
        stack(n),
    ]
}

#[test]
fn the_program_prints_the_totals_of_the_model() {
    let (mut pools, mut cells, mut kept_cells, mut kept_points, mut leftover) = (0, 0, 0, 0, 0);
    let (mut sums, mut checks) = ([0; 5], [0; 5]);
    for seed in 0..SEEDS {
        let generator = Generator::new(seed);
        let n = generator.n as usize;
        let words = generator.well_formed();
        let pool = Pool::decode(&words).expect("the size is right");
        assert!(pool.well_formed(), "seed {seed}");
        pools += 1;
        cells += generator.n;
        leftover += generator.leftover();
        let reached = pool.reached();
        kept_cells += reached.len() as u32;
        kept_points += reached.iter().filter(|&&i| words[cell_at(i)] == POINT).count();
        for (marker, answer) in answers(&words, n).into_iter().enumerate() {
            match answer {
                Ok((_, more, made)) => {
                    sums[marker] += more;
                    checks[marker] += made;
                }
                Err(refusal) => assert!(marker == 1 && n > MOST_RECURSIVE && refusal == TOO_LARGE, "seed {seed}"),
            }
        }
        let damaged = generator.malformed();
        for (marker, answer) in answers(&damaged, n).into_iter().enumerate() {
            let refusal = if marker == 1 && n > MOST_RECURSIVE { TOO_LARGE } else { MALFORMED };
            assert_eq!(answer, Err(refusal), "seed {seed}");
        }
    }
    let mut text =
        format!("well-formed pools: {pools}\ncells: {cells}\nkept cells: {kept_cells}\nmalformed pools: {pools}\n");
    let names = ["reversal", "recursive marker", "stack of no words", "stack of one word", "stack of N words"];
    for (marker, (name, sum)) in names.iter().zip(sums).enumerate() {
        let more = if marker < 2 { "visits" } else { "enough" };
        writeln!(text, "{name}: agreed {}, differed 0, {more} {sum}", 2 * pools).expect("a string takes it");
    }
    for (name, made) in ["no words", "one word", "N words"].iter().zip(&checks[2..]) {
        writeln!(text, "checks with {name}: {made}").expect("a string takes it");
    }
    writeln!(text, "words behind the cells: {}", 2 * leftover).expect("a string takes it");
    writeln!(text, "kept points: {kept_points}").expect("a string takes it");
    let path = concat!(env!("CARGO_MANIFEST_DIR"), "/../crates/trials/stdout");
    assert_eq!(text, std::fs::read_to_string(path).expect("the program's output"));
}
