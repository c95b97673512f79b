//! The comparisons. Each runs an implementation on many inputs and answers the first difference as text.

use crate::generate::{self, Comb, Shape, SHAPES};
use crate::model::{groups, Cell, Model, Pool};
use crate::random::{self, Random};
use crate::reads::{self, Distinction};
use crate::reference::Reference;
use crate::refusal::PADDED;
use crate::visit::Marking;
use crate::{
    apply, cell_at, words_for, Answer, Call, Interface, Tally, CELL, FREE, HEADER, MOST_CELLS, MOST_RECURSIVE, PAIR,
    POINT, REGISTERS,
};
use std::collections::BTreeSet;
use std::fmt::Debug;

pub type Outcome = Result<(), String>;

/// A comparison, with the stream of its random numbers and, where it has rounds, how many one run has.
#[derive(Clone, Copy)]
pub struct Comparison {
    pub stream: u64,
    pub rounds: usize,
    pub run: fn(&dyn Interface, &mut Random, usize) -> Outcome,
}

impl Comparison {
    /// Run it, with the seed and the rounds that are set.
    pub fn on(self, pool: &dyn Interface) -> Outcome {
        let seed = random::seed();
        let mut random = Random::new(seed.wrapping_mul(1_000).wrapping_add(self.stream));
        (self.run)(pool, &mut random, random::rounds(self.rounds)).map_err(|text| format!("seed {seed}: {text}"))
    }
}

pub const CALL_LISTS: Comparison = Comparison { stream: 1, rounds: 6_000, run: call_lists };
pub const ANY_WORDS: Comparison = Comparison { stream: 2, rounds: 30_000, run: any_words };
pub const REFERENCE: Comparison = Comparison { stream: 3, rounds: 15_000, run: against_reference };
pub const COLLECTIONS: Comparison = Comparison { stream: 4, rounds: 15_000, run: collections };
pub const GRAPHS: Comparison = Comparison { stream: 5, rounds: 0, run: graphs };
pub const SAVES: Comparison = Comparison { stream: 6, rounds: 6_000, run: saves };
pub const IMAGES: Comparison = Comparison { stream: 7, rounds: 60_000, run: images };
pub const NUMBERS: Comparison = Comparison { stream: 8, rounds: 0, run: numbers };
pub const LENGTHS: Comparison = Comparison { stream: 9, rounds: 0, run: lengths };
pub const PERCENTAGES: Comparison = Comparison { stream: 10, rounds: 0, run: percentages };
pub const SMALL_POOLS: Comparison = Comparison { stream: 11, rounds: 0, run: small_pools };
pub const LARGEST_POOL: Comparison = Comparison { stream: 12, rounds: 0, run: largest_pool_filled };
pub const SIZES: Comparison = Comparison { stream: 13, rounds: 0, run: every_size };
pub const STACK_LENGTHS: Comparison = Comparison { stream: 14, rounds: 0, run: every_stack_length };
pub const LENT_LENGTHS: Comparison = Comparison { stream: 15, rounds: 0, run: every_lent_length };
pub const ROUND_TRIPS: Comparison = Comparison { stream: 16, rounds: 10_000, run: round_trips };
pub const WORST_CASES: Comparison = Comparison { stream: 17, rounds: 0, run: worst_cases };
pub const CHECKED_POOLS: Comparison = Comparison { stream: 18, rounds: 0, run: checked_pools };
pub const LEFTOVERS: Comparison = Comparison { stream: 19, rounds: 1_000, run: leftovers };
pub const FORMER_IMAGES: Comparison = Comparison { stream: 20, rounds: 0, run: former_images };
pub const PLANS: Comparison = Comparison { stream: 21, rounds: 10_000, run: plans };

fn equal<T: PartialEq + Debug>(what: impl Fn() -> String, found: T, expected: T) -> Outcome {
    if found == expected {
        Ok(())
    } else {
        Err(format!("{}: found {found:?}, expected {expected:?}", what()))
    }
}

/// Words after a call; the text names the first place where they differ.
fn equal_words<T: PartialEq + Debug>(what: impl Fn() -> String, found: &[T], expected: &[T]) -> Outcome {
    if found == expected {
        return Ok(());
    }
    let place = (0..expected.len()).find(|&place| found[place] != expected[place]).expect("one place differs");
    Err(format!("{}: place {place} is {:?}, expected {:?}", what(), found[place], expected[place]))
}

/// One call on the words, which are then those of the model.
fn one_call(pool: &dyn Interface, words: &mut [u32], call: Call) -> Outcome {
    let before = words.to_vec();
    let mut found = before.clone();
    let answer = apply(pool, &mut found, call);
    let expected = apply(&Model, words, call);
    let what = || format!("{call:?} on {before:?}");
    equal(what, answer, expected)?;
    equal_words(what, &found, words)
}

/// A function that makes words a pool by their length alone, and its name. The second number is 0 where only one is answered.
type Builder = (&'static str, fn(&dyn Interface, &mut [u32]) -> Result<(u32, u32), u32>);

const FRESH: Builder = ("fresh", |pool, words| pool.fresh(words));
const WORST_CASE: Builder = ("worst case", |pool, words| pool.worst_case(words).map(|entries| (entries, 0)));

/// Such a function on the words, which are then those of the model.
fn build(pool: &dyn Interface, (name, builder): Builder, words: &mut [u32]) -> Outcome {
    let length = words.len();
    let what = || format!("{name} on {length} words");
    let mut found = words.to_vec();
    equal(what, builder(pool, &mut found), builder(&Model, words))?;
    equal_words(what, &found, words)
}

/// Lists of calls from fresh words, every word compared after every call.
fn call_lists(pool: &dyn Interface, random: &mut Random, rounds: usize) -> Outcome {
    for _ in 0..rounds {
        let n = generate::cells(random);
        let mut words = generate::noise(random, n);
        build(pool, FRESH, &mut words)?;
        let count = random.between(1, 120);
        for call in generate::calls(random, count) {
            one_call(pool, &mut words, call)?;
        }
    }
    Ok(())
}

/// Every call on words of any kind, among them damaged ones and ones of a wrong size.
fn any_words(pool: &dyn Interface, random: &mut Random, rounds: usize) -> Outcome {
    for _ in 0..rounds {
        let words = generate::words(random);
        for call in generate::calls(random, 12) {
            one_call(pool, &mut words.clone(), call)?;
        }
        build(pool, FRESH, &mut words.clone())?;
        build(pool, WORST_CASE, &mut words.clone())?;
    }
    Ok(())
}

/// The pool from fresh words beside the reference model. Their answers are the same up to the first `new` or `point` that finds a live
/// count between the lesser and the greater of N and L, and differ there.
pub fn against_reference(pool: &dyn Interface, random: &mut Random, rounds: usize) -> Outcome {
    for round in 0..rounds {
        let n = random.between(1, 12);
        let limit = match random.below(4) {
            0 | 1 => n as u64,
            2 => random.below(16) as u64,
            _ => random.pick(&[0, n as u64 - 1, n as u64 + 1, 4001, u64::from(u32::MAX), u64::MAX]),
        };
        let count = random.between(1, 150);
        let list = generate::calls(random, count);
        let words = generate::blank(random, n);
        reference_list(pool, n, words, limit, &list).map_err(|text| format!("round {round}: {text}"))?;
    }
    Ok(())
}

/// One list of calls on these words of a pool of `n` cells, whatever is left over: where the answers first differ, and where they
/// must.
fn reference_list(pool: &dyn Interface, n: usize, mut words: Vec<u32>, limit: u64, list: &[Call]) -> Outcome {
    let leftover = words.len() - words_for(n);
    equal(|| format!("fresh of {n}"), pool.fresh(&mut words), Ok((n as u32, leftover as u32)))?;
    let found: Vec<Answer> = list.iter().map(|&call| apply(pool, &mut words, call).0).collect();
    let mut reference = Reference::new(limit);
    let mut apart = None;
    let mut expected = Vec::new();
    for (place, &call) in list.iter().enumerate() {
        let told = reference.asked(call).is_some_and(|live| (live >= limit) != (live >= n as u64));
        if told && apart.is_none() {
            apart = Some(place);
        }
        expected.push(reference.step(call));
    }
    let differs = (0..list.len()).find(|&place| found[place] != expected[place]);
    equal(|| format!("first difference with N {n} and L {limit} in {list:?}"), differs, apart)
}

/// The largest pool filled, and used again after everything was dropped.
fn largest_pool_filled(pool: &dyn Interface, random: &mut Random, _: usize) -> Outcome {
    let n = MOST_CELLS;
    let pair = |v: usize| vec![Call::New { r: 0, a: 0, b: 1, v: v as u32 }];
    // A pair whose right cell is a point.
    let both = |v: usize| {
        let (x, y) = (v as u32, 1);
        vec![Call::Point { r: 1, v: x, x, y }, Call::New { r: 0, a: 0, b: 1, v: x }, Call::Clear { r: 1 }]
    };
    for (fill, times) in [(&pair as &dyn Fn(usize) -> Vec<Call>, n + 2), (&both, n / 2 + 1)] {
        let mut list: Vec<Call> = (0..times).flat_map(fill).collect();
        list.extend([Call::Collect, Call::Right { r: 1, a: 0 }, Call::Left { r: 0, a: 0 }, Call::Collect]);
        list.extend((0..3).flat_map(fill));
        list.extend([Call::Clear { r: 0 }, Call::Clear { r: 1 }]);
        list.extend((0..100).flat_map(fill));
        list.push(Call::Collect);
        for limit in [n - 1, n, n + 1] {
            reference_list(pool, n, generate::blank(random, n), limit as u64, &list)?;
        }
    }
    Ok(())
}

/// The digits of a number, the first one below the first base.
fn digits(mut code: usize, bases: &[usize]) -> Vec<u32> {
    let digit = |&base: &usize| {
        let digit = code % base;
        code /= base;
        digit as u32
    };
    bases.iter().map(digit).collect()
}

/// The contents of a cell that are tried in every pool of few cells: each of these states with two links each, from a few of them,
/// and one point with any two numbers, since a point's words are not looked at.
struct Contents<'a> {
    states: &'a [u32],
    links: usize,
}

impl Contents<'_> {
    fn count(&self) -> usize {
        self.states.len() * self.links * self.links + 1
    }

    /// Put them into the cells by their numbers.
    fn put(&self, words: &mut [u32], numbers: &[u32], random: &mut Random) {
        let n = numbers.len();
        for (cell, &number) in words[HEADER..].chunks_exact_mut(CELL).zip(numbers) {
            let places = digits(number as usize, &[self.links, self.links, self.states.len() + 1]);
            let content = match self.states.get(places[2] as usize) {
                Some(&state) => [state, places[0], places[1]],
                None => generate::point(random, n),
            };
            cell[..3].copy_from_slice(&content);
            cell[3] = 7;
        }
    }
}

/// Every pool of one or two cells with small numbers, and every well-formed pool of three used cells, and of four from register 0,
/// which need one stack word at most.
fn small_pools(pool: &dyn Interface, random: &mut Random, _: usize) -> Outcome {
    for n in [1, 2] {
        // The head, register 0, and each cell.
        let contents = Contents { states: &[PAIR, FREE, 3], links: n + 2 };
        let mut bases = vec![n + 2; 2];
        bases.extend(vec![contents.count(); n]);
        for code in 0..bases.iter().product() {
            let small = digits(code, &bases);
            let mut words = generate::blank(random, n);
            words[0] = n as u32;
            words[1] = small[0];
            words[2] = small[1];
            contents.put(&mut words, &small[2..], random);
            for call in [
                Call::Copy { r: 1, a: 0 },
                Call::Clear { r: 0 },
                Call::New { r: 0, a: 0, b: 1, v: 5 },
                Call::New { r: 1, a: 1, b: 0, v: 5 },
                Call::Point { r: 0, v: 5, x: 1, y: 2 },
                Call::Left { r: 1, a: 0 },
                Call::Right { r: 0, a: 0 },
                Call::SetLeft { a: 0, b: 1 },
                Call::SetLeft { a: 1, b: 0 },
                Call::SetRight { a: 0, b: 0 },
                Call::SetValue { a: 0, v: 8 },
                Call::Value { a: 0 },
                Call::East { a: 0 },
                Call::North { a: 0 },
                Call::Same { a: 0, b: 1 },
                Call::Collect,
            ] {
                one_call(pool, &mut words.clone(), call)?;
            }
            for length in 0..3 {
                stack_collect(pool, &words, length, random)?;
            }
            save(pool, &words, 2 * n, 60, random)?;
        }
    }
    let contents = Contents { states: &[PAIR], links: 4 };
    let bases = [[4; 2].as_slice(), &[contents.count(); 3]].concat();
    for code in 0..bases.iter().product() {
        let small = digits(code, &bases);
        let mut words = generate::blank(random, 3);
        words[0] = 3;
        words[2..4].copy_from_slice(&small[..2]);
        contents.put(&mut words, &small[2..], random);
        one_call(pool, &mut words.clone(), Call::Collect)?;
        one_call(pool, &mut words.clone(), Call::New { r: 0, a: 1, b: 0, v: 5 })?;
        for length in 0..3 {
            stack_collect(pool, &words, length, random)?;
        }
        save(pool, &words, 6, 29, random)?;
    }
    let contents = Contents { states: &[PAIR], links: 5 };
    for code in 0..contents.count().pow(4) {
        let mut words = generate::blank(random, 4);
        (words[0], words[2]) = (4, 1);
        contents.put(&mut words, &digits(code, &[contents.count(); 4]), random);
        for length in 0..3 {
            stack_collect(pool, &words, length, random)?;
        }
    }
    Ok(())
}

/// Every pool of so many cells that the stack marker with one, two or three words can tell from the others, where the first cells
/// in hand lead to two new ones each, until a check is made. The links of a cell are chosen when it is looked at, in hand or in a
/// check, and no longer once all cells are marked. Which marked cell a link leads to, or to nil, makes no difference: one of them
/// is taken; and where both links are such, now and then the cell is a point. Neither does the number of a new cell.
fn checked_pools(pool: &dyn Interface, random: &mut Random, _: usize) -> Outcome {
    for (length, most) in [(1, 9), (2, 11), (3, 12)] {
        let pushed = 2 * length as u32 + 3;
        for n in pushed..=most {
            let cell = Cell { state: PAIR, left: 0, right: 0, value: 7 };
            let mut graph = Pool { head: 0, registers: [0; REGISTERS], cells: vec![cell; n as usize] };
            graph.registers[0] = 1;
            // Cell 1 leads to 2 and 3, 2 to 4 and 5, 4 to 6 and 7, and so on.
            let mut chosen: Vec<u32> = (1..pushed - 1).filter(|i| *i == 1 || i % 2 == 0).collect();
            for (place, &i) in chosen.iter().enumerate() {
                let left = 2 * place as u32 + 2;
                graph.cells[i as usize - 1] = Cell { left, right: left + 1, ..cell };
            }
            every_choice(&mut graph, &mut chosen, pushed, length, random, &mut |graph, random| {
                let mut words = generate::blank(random, n as usize);
                graph.encode(&mut words);
                stack_collect(pool, &words, length, random)
            })?;
        }
    }
    Ok(())
}

/// Go through the choices of links for the first cell that is looked at before its links are chosen. The cells up to `named` are
/// those that links and the register lead to.
fn every_choice(
    graph: &mut Pool,
    chosen: &mut Vec<u32>,
    named: u32,
    length: usize,
    random: &mut Random,
    show: &mut impl FnMut(&Pool, &mut Random) -> Outcome,
) -> Outcome {
    let mut first: Option<(u32, Vec<u32>)> = None;
    let look = |cell: u32, marked: &dyn Fn(u32) -> bool| {
        if first.is_none() && !chosen.contains(&cell) {
            first = Some((cell, (0..=graph.n()).filter(|&link| marked(link)).collect()));
        }
    };
    graph.mark_with_words(length, look, |_| ());
    let Some((cell, marked)) = first.filter(|(_, marked)| marked.len() <= graph.cells.len()) else {
        return show(graph, random);
    };
    // Nil stands for every marked one.
    let links = |named: u32| (0..=graph.n().min(named + 1)).filter(|&link| link == 0 || !marked.contains(&link));
    let pairs = links(named).flat_map(|left| links(named.max(left)).map(move |right| (left, right)));
    let place = cell as usize - 1;
    let before = graph.cells[place];
    chosen.push(cell);
    for (left, right) in pairs.collect::<Vec<_>>() {
        // Often the newest one, which the same check may have marked.
        let newest = marked[marked.len() - 1];
        let mut taken = |link: u32| match link {
            0 if random.once_in(2) => newest,
            0 => random.pick(&marked),
            _ => link,
        };
        graph.cells[place] = Cell { left: taken(left), right: taken(right), ..before };
        if (left, right) == (0, 0) && random.once_in(3) {
            graph.cells[place].state = POINT;
        }
        every_choice(graph, chosen, named.max(left).max(right), length, random, show)?;
    }
    chosen.pop();
    graph.cells[place] = before;
    Ok(())
}

/// A marker by reversal that tells its visits, and leaves the marks.
pub type Marker = dyn Fn(&mut [u32]) -> Result<Marking, u32>;

/// Marking by reversal by its cases, beside the collector whose visits they are: well-formed pools of many kinds, and every one of
/// one to three cells with small numbers and two registers.
pub fn cases(pool: &dyn Interface, marker: &Marker, random: &mut Random, rounds: usize) -> Outcome {
    for words in generate::well_formed_pools(random, rounds) {
        one_marking(pool, marker, &words)?;
    }
    for n in 1..=3 {
        // Two registers, and each cell.
        let contents = Contents { states: &[PAIR, FREE], links: n + 1 };
        let mut bases = vec![n + 1; 2];
        bases.extend(vec![contents.count(); n]);
        for code in 0..bases.iter().product() {
            let small = digits(code, &bases);
            let mut words = generate::blank(random, n);
            words[0] = n as u32;
            words[2..4].copy_from_slice(&small[..2]);
            contents.put(&mut words, &small[2..], random);
            if decoded(&words).is_some() {
                one_marking(pool, marker, &words)?;
            }
        }
    }
    Ok(())
}

/// The marker on the words of a well-formed pool: what it tells is what the model finds without reversing a link, and what the
/// numbers of kept pairs and points and of runs say; pairs that are reached end with mark 3, points with 6, and every other word
/// stays.
fn one_marking(pool: &dyn Interface, marker: &Marker, words: &[u32]) -> Outcome {
    let what = || format!("marking by cases on {words:?}");
    let graph = decoded(words).expect("the pool is well-formed");
    let (reached, mut expected, mut found) = (graph.reached(), words.to_vec(), words.to_vec());
    let points = reached.iter().filter(|&&i| graph.cell(i).state == POINT).count() as u32;
    reached.iter().for_each(|&i| expected[cell_at(i)] = if graph.cell(i).state == POINT { 6 } else { 3 });
    let told = marker(&mut found).map_err(|refusal| format!("{}: refused {refusal}", what()))?;
    equal(what, &told, &graph.marking())?;
    equal_words(what, &found, &expected)?;
    // A run begins at the cell of a register that no register before it leads to.
    let (mut begun, mut before) = (Vec::new(), BTreeSet::new());
    for link in graph.registers {
        if link != 0 && !before.contains(&link) {
            begun.push(link);
            let mut alone = graph.clone();
            alone.registers = [0; REGISTERS];
            alone.registers[0] = link;
            before.extend(alone.reached());
        }
    }
    let (kept, runs) = (reached.len() as u32, begun.len() as u32);
    let pairs = kept - points;
    let [retreat, follow_left, pass_left, follow_right, pass_right, point] = told.times;
    equal(what, told.runs, runs)?;
    // Each kept pair has a first visit, a second and a third, and each kept point has one.
    equal(what, (follow_left + pass_left, follow_right + pass_right, retreat), (pairs, pairs, pairs))?;
    equal(what, point, points)?;
    // Cases 2 and 4 go to each kept cell at which no run begins, once, in the order of the first visits.
    equal(what, follow_left + follow_right, kept - runs)?;
    let mut others = graph.depth_first();
    others.retain(|i| !begun.contains(i));
    equal(what, &told.entered, &others)?;
    // The four-way exchanges, with those of p and q alone at points: for one run over n cells 2 * n - 1.
    equal(what, retreat + point + follow_left + follow_right, 2 * kept - runs)?;
    let visits = told.times.iter().sum();
    equal(what, (visits, told.cases.len() as u32), (3 * pairs + points, 3 * pairs + points))?;
    equal(what, pool.collect(&mut words.to_vec()), Ok((kept, visits)))
}

/// Every form of collect on the same words.
fn collections(pool: &dyn Interface, random: &mut Random, rounds: usize) -> Outcome {
    for _ in 0..rounds {
        let words = generate::words(random);
        every_collect(pool, &words, random)?;
    }
    Ok(())
}

/// The pool in these words, if it is well-formed.
fn decoded(words: &[u32]) -> Option<Pool> {
    Pool::decode(words).ok().filter(Pool::well_formed)
}

/// How many cells the length has room for.
fn room(words: &[u32]) -> usize {
    words.len().saturating_sub(HEADER) / CELL
}

/// So many words, none of them 0, to be lent.
fn filled(random: &mut Random, length: usize) -> impl Iterator<Item = u32> {
    let (first, step) = (random.word(), random.word() | 1);
    (0..length as u32).map(move |i| first.wrapping_add(i.wrapping_mul(step)) | 1)
}

/// The words with which the stack marker makes no check, or a small number.
fn stack_needed(words: &[u32], random: &mut Random) -> usize {
    decoded(words).map_or_else(|| random.below(3), |pool| pool.stack_needed())
}

/// A length with up to 20,000 elements behind those needed, and now and then one that differs by 2^16 from one that is
/// too short.
fn far_beyond(random: &mut Random, needed: usize) -> usize {
    if random.once_in(4) {
        (1 << 16) + random.below(needed + 1)
    } else {
        needed + random.below(20_000)
    }
}

/// Every form of collect on these words: answers, words, tally and stack. The lengths of the stack are 0 to 12, around what
/// makes no check, around what never does, any up to beyond N, and now and then far beyond.
fn every_collect(pool: &dyn Interface, words: &[u32], random: &mut Random) -> Outcome {
    one_call(pool, &mut words.to_vec(), Call::Collect)?;
    recursive_collect(pool, words)?;
    tally_collect(pool, words, random)?;
    let (n, needed) = (room(words), stack_needed(words, random));
    let most = n.saturating_sub(1) / 2;
    let around = [needed.saturating_sub(2), needed.saturating_sub(1), needed, needed + 1, needed + 5];
    let any = [most.saturating_sub(1), most, n, random.below(n + 10), random.below(needed + 3)];
    for length in (0..=12).chain(around).chain(any).collect::<BTreeSet<usize>>() {
        stack_collect(pool, words, length, random)?;
    }
    if random.once_in(30) {
        let length = far_beyond(random, needed);
        stack_collect(pool, words, length, random)?;
    }
    Ok(())
}

fn recursive_collect(pool: &dyn Interface, words: &[u32]) -> Outcome {
    let (mut found, mut expected) = (words.to_vec(), words.to_vec());
    let what = || format!("recursive collect on {words:?}");
    equal(what, pool.collect_recursive(&mut found), Model.collect_recursive(&mut expected))?;
    equal_words(what, &found, &expected)
}

fn tally_collect(pool: &dyn Interface, words: &[u32], random: &mut Random) -> Outcome {
    let mut near = || match random.below(4) {
        0 | 1 => random.word(),
        2 => u32::MAX - random.below(3 * room(words) + 2) as u32,
        _ => random.pick(&[0, 1, 7, u32::MAX - 7, u32::MAX - 3, u32::MAX - 1, u32::MAX]),
    };
    let before = Tally { collections: near(), visits: near() };
    let (mut found, mut expected) = (words.to_vec(), words.to_vec());
    let (mut found_tally, mut expected_tally) = (before, before);
    let what = || format!("tally collect with {before:?} on {words:?}");
    let answer = pool.collect_tally(&mut found, &mut found_tally);
    equal(what, answer, Model.collect_tally(&mut expected, &mut expected_tally))?;
    equal_words(what, &found, &expected)?;
    equal(what, found_tally, expected_tally)
}

/// The stack marker with a stack of this length.
fn stack_collect(pool: &dyn Interface, words: &[u32], length: usize, random: &mut Random) -> Outcome {
    let stack: Vec<u32> = filled(random, length).collect();
    let (mut found, mut expected) = (words.to_vec(), words.to_vec());
    let (mut found_stack, mut expected_stack) = (stack.clone(), stack);
    let what = || format!("stack collect with {length} words on {words:?}");
    let answer = pool.collect_stack(&mut found, &mut found_stack);
    equal(what, answer, Model.collect_stack(&mut expected, &mut expected_stack))?;
    equal_words(what, &found, &expected)?;
    equal_words(what, &found_stack, &expected_stack)
}

/// Whether a stack of this length is enough, and the checks, where so many leaves are pushed one after the other: a check drops all
/// that are held.
fn leaves(entries: usize, length: usize) -> (u32, u32) {
    match length {
        _ if length >= entries => (1, 0),
        0 => (0, 1),
        _ => (1, ((entries - 1) / length) as u32),
    }
}

/// The same where every entry is needed: one check finds that.
fn forks(entries: usize, length: usize) -> (u32, u32) {
    if length >= entries {
        (1, 0)
    } else {
        (0, 1)
    }
}

/// Pools of every number of used cells for which the stack marker holds as many entries as it can, leaves or forks, with one stack
/// word less than that, with as many, and with any number: so every length of a stack is tried where a check is just made and
/// where none is, where it drops every entry and where it drops none. Chains of equal links of every length, with no stack word.
fn every_stack_length(pool: &dyn Interface, random: &mut Random, _: usize) -> Outcome {
    for used in 1..=MOST_CELLS {
        let n = if random.once_in(2) { used } else { random.between(used, MOST_CELLS) };
        let (most, most_forks, any) = ((used - 1) / 2, used.saturating_sub(3) / 2, random.below(n + 4));
        let comb = |random: &mut Random, entries: usize, forks: usize| {
            let points = generate::share_of_points(random);
            let words = generate::comb_and_chain(random, Comb { entries, forks, points, used }, n);
            generate::with_leftover(random, words)
        };
        let words = comb(random, 0, 0);
        every_word_kept(pool, &words, used, &[0], |length| leaves(0, length), random)?;
        let words = comb(random, most, 0);
        let lengths = [most.saturating_sub(1), most, any];
        every_word_kept(pool, &words, used, &lengths, |length| leaves(most, length), random)?;
        if most_forks > 0 {
            let words = comb(random, most_forks, most_forks);
            every_word_kept(
                pool,
                &words,
                used,
                &[most_forks - 1, most_forks],
                |length| forks(most_forks, length),
                random,
            )?;
        }
    }
    Ok(())
}

/// The worst case of every size, from words of any content: a stack of as many words as are answered makes no check, and a shorter
/// one a check for each push that finds it full.
fn worst_cases(pool: &dyn Interface, random: &mut Random, _: usize) -> Outcome {
    for n in 0..=MOST_CELLS + 3 {
        // No pool has such a length.
        if !(1..=MOST_CELLS).contains(&n) {
            for length in words_for(n)..words_for(n + 1) {
                build(pool, WORST_CASE, &mut filled(random, length).collect::<Vec<u32>>())?;
            }
            continue;
        }
        let length = words_for(n) + random.below(CELL);
        let mut words: Vec<u32> = filled(random, length).collect();
        build(pool, WORST_CASE, &mut words)?;
        let entries = (n - 1) / 2;
        let lengths = [entries.saturating_sub(1), entries, n % 13, random.below(entries + 1)];
        every_word_kept(pool, &words, n, &lengths, |length| leaves(entries, length), random)?;
    }
    Ok(())
}

/// A pool that a collection leaves word for word: it keeps `used` cells, by reversal and with stacks of these lengths, for which
/// `expected` tells whether they are enough, and the checks. What is expected is known without the model.
fn every_word_kept(
    pool: &dyn Interface,
    words: &[u32],
    used: usize,
    lengths: &[usize],
    expected: impl Fn(usize) -> (u32, u32),
    random: &mut Random,
) -> Outcome {
    let n = room(words);
    let mut found = words.to_vec();
    let what = || format!("collect of {used} cells of {n}");
    let points = words[HEADER..].chunks_exact(CELL).filter(|cell| cell[0] == POINT).count();
    let visits = 3 * (used - points) + points;
    equal(what, pool.collect(&mut found), Ok((used as u32, visits as u32)))?;
    equal_words(what, &found, words)?;
    for &length in lengths {
        let (mut found, mut stack) = (words.to_vec(), filled(random, length).collect::<Vec<u32>>());
        let what = || format!("stack collect of {used} cells of {n} with {length} words");
        let (enough, checks) = expected(length);
        equal(what, pool.collect_stack(&mut found, &mut stack), Ok((used as u32, enough, checks)))?;
        equal_words(what, &found, words)?;
        equal(what, stack.iter().find(|&&word| word != 0), None)?;
    }
    Ok(())
}

/// Graphs of known shape, up to the largest pool.
fn graphs(pool: &dyn Interface, random: &mut Random, _: usize) -> Outcome {
    for shape in SHAPES {
        for n in [1, 2, 3, 4, 5, 6, 7, 31, 63, 64, 65, 100, MOST_CELLS - 1, MOST_CELLS] {
            let words = shape.words(n, random);
            let words = generate::with_leftover(random, words);
            every_collect(pool, &words, random).map_err(|text| format!("{}, {n}: {text}", shape.name()))?;
            let mut with_points = generate::with_points(random, words.clone());
            with_points[2] = 1 + random.below(n) as u32;
            every_collect(pool, &with_points, random).map_err(|text| format!("{}, {n}: {text}", shape.name()))?;
            every_save(pool, &words, random).map_err(|text| format!("{}, {n}: {text}", shape.name()))?;
        }
    }
    let words = Shape::Random.words(MOST_CELLS, random);
    let words = generate::with_points(random, words);
    let mut words = generate::with_leftover(random, words);
    for call in generate::calls(random, 100) {
        one_call(pool, &mut words, call)?;
    }
    Ok(())
}

/// Save with scratch and output of lengths around what is needed, and of any.
fn saves(pool: &dyn Interface, random: &mut Random, rounds: usize) -> Outcome {
    for _ in 0..rounds {
        let words = generate::words(random);
        if room(&words) < 200 {
            every_save(pool, &words, random)?;
        } else {
            some_saves(pool, &words, random)?;
        }
    }
    Ok(())
}

/// The image of these words, or bytes of about such a length.
fn image(words: &[u32], random: &mut Random) -> Vec<u8> {
    decoded(words).map_or_else(|| vec![0; random.between(17, 40)], |pool| pool.image())
}

fn every_save(pool: &dyn Interface, words: &[u32], random: &mut Random) -> Outcome {
    let n = room(words);
    let bytes = image(words, random).len();
    for scratch in [0, n, (2 * n).saturating_sub(1), 2 * n, 2 * n + 1, 2 * n + 9] {
        for out in [0, 1, 16, 17, bytes - 1, bytes, bytes + 1, bytes + 11] {
            save(pool, words, scratch, out, random)?;
        }
    }
    some_saves(pool, words, random)
}

/// Save with enough scratch and output, with any, and with far more; then load what was saved, and more bytes.
fn some_saves(pool: &dyn Interface, words: &[u32], random: &mut Random) -> Outcome {
    exact_saves(pool, words, random)?;
    let needed = 2 * room(words);
    let mut longer = image(words, random);
    let bytes = longer.len();
    for (scratch, out) in
        [(random.below(needed + 10), bytes + random.below(10)), (needed + random.below(10), random.below(bytes + 10))]
    {
        save(pool, words, scratch, out, random)?;
    }
    if random.once_in(30) {
        let (scratch, out) = (far_beyond(random, needed), far_beyond(random, bytes));
        save(pool, words, scratch, out, random)?;
    }
    // Bytes behind the image, now and then so many that the length differs by 2^16 from one that is too short.
    let behind = if random.once_in(30) { (1 << 16) - 1 } else { random.below(5) };
    longer.extend((0..behind).map(|_| random.word() as u8));
    load(pool, words, &longer)?;
    check(pool, &longer, needed as u32 / 2)
}

/// Save with just enough scratch and output, and with one element less; then load what was saved.
fn exact_saves(pool: &dyn Interface, words: &[u32], random: &mut Random) -> Outcome {
    let needed = 2 * room(words);
    let image = image(words, random);
    save(pool, words, needed, image.len(), random)?;
    save(pool, words, needed.saturating_sub(1), image.len(), random)?;
    save(pool, words, needed, image.len() - 1, random)?;
    load(pool, words, &image)
}

fn save(pool: &dyn Interface, words: &[u32], scratch: usize, out: usize, random: &mut Random) -> Outcome {
    let scratch: Vec<u32> = filled(random, scratch).collect();
    let out: Vec<u8> = filled(random, out).map(|word| (word >> 24) as u8).collect();
    let what = || format!("save with scratch {} and output {} of {words:?}", scratch.len(), out.len());
    let (mut found, mut expected) = (words.to_vec(), words.to_vec());
    let (mut found_scratch, mut expected_scratch) = (scratch.clone(), scratch.clone());
    let (mut found_out, mut expected_out) = (out.clone(), out.clone());
    let answer = pool.save(&mut found, &mut found_scratch, &mut found_out);
    equal(what, answer, Model.save(&mut expected, &mut expected_scratch, &mut expected_out))?;
    equal_words(what, &found, &expected)?;
    equal_words(what, &found_scratch, &expected_scratch)?;
    equal_words(what, &found_out, &expected_out)
}

fn load(pool: &dyn Interface, words: &[u32], bytes: &[u8]) -> Outcome {
    let what = || format!("load of {bytes:02X?} into {} words", words.len());
    let (mut found, mut expected) = (words.to_vec(), words.to_vec());
    equal(what, pool.load(&mut found, bytes), Model.load(&mut expected, bytes))?;
    equal_words(what, &found, &expected)
}

fn check(pool: &dyn Interface, bytes: &[u8], n: u32) -> Outcome {
    equal(|| format!("check for {n} of {bytes:02X?}"), pool.check_image(bytes, n), Model.check_image(bytes, n))
}

/// Load and check on images of every kind.
fn images(pool: &dyn Interface, random: &mut Random, rounds: usize) -> Outcome {
    for _ in 0..rounds {
        let n = if random.once_in(2) { random.pick(&[1, 1, 2, 3, 5, 8, 20]) } else { generate::cells(random) };
        let bytes = generate::image(random, n);
        let mut words = generate::noise(random, n);
        if random.once_in(20) {
            let (few, any) = (random.below(HEADER), random.below(words.len() + 3));
            let leftover = random.below(CELL);
            words.resize(
                random.pick(&[few, any, any, words_for(0) + leftover, words_for(MOST_CELLS + 1) + leftover]),
                7,
            );
        }
        load(pool, &words, &bytes)?;
        let near = n as u32;
        check(pool, &bytes, random.pick(&[0, 1, near - 1, near, near, near, near + 1, 3_999, 4_000, 4_001, u32::MAX]))?;
        if random.once_in(10) {
            // Every cut of a short image, some of a long one.
            let step = if n <= 20 { 1 } else { random.between(bytes.len() / 8 + 1, bytes.len() + 1) };
            for length in (0..bytes.len()).step_by(step) {
                load(pool, &words, &bytes[..length])?;
            }
        }
    }
    Ok(())
}

/// Images with their cells in the order of the visits. Such an image loads, with any bytes behind it, leaves the words left over,
/// and saves as the bytes that were read; with one number padded it is refused. What is expected is known without the model's
/// reader.
fn round_trips(pool: &dyn Interface, random: &mut Random, rounds: usize) -> Outcome {
    for _ in 0..rounds {
        let n = generate::cells(random);
        let graph = match random.below(3) {
            0 => {
                let words = random.pick(&SHAPES).words(n, random);
                generate::with_points(random, words)
            }
            1 => generate::built_by_calls(random, n),
            _ => generate::well_formed(random, n),
        };
        let image = image(&graph, random);
        let length = words_for(n) + random.below(CELL);
        let before: Vec<u32> = filled(random, length).collect();
        let mut words = before.clone();
        if random.once_in(2) {
            let bytes = generate::padded_image(random, &image);
            let what = || format!("{bytes:02X?} for {n} cells");
            equal(what, pool.load(&mut words, &bytes), (Err(PADDED), bytes.len()))?;
            equal_words(what, &words, &before)?;
            equal(what, pool.check_image(&bytes, n as u32), Err(PADDED))?;
            continue;
        }
        let mut bytes = image.clone();
        bytes.extend((0..random.below(5)).map(|_| random.word() as u8));
        let what = || format!("{bytes:02X?} for {n} cells");
        equal(what, pool.check_image(&bytes, n as u32), Ok(()))?;
        equal(what, pool.load(&mut words, &bytes), (Ok(()), image.len()))?;
        equal_words(what, &words[words_for(n)..], &before[words_for(n)..])?;
        let mut out = vec![0x55; image.len()];
        equal(what, pool.save(&mut words, &mut vec![7; 2 * n], &mut out), Ok(image.len()))?;
        equal_words(what, &out, &image)?;
    }
    Ok(())
}

/// Every sequence of up to two bytes, and of three to five with bytes at the limits, as each kind of number of an image; and of six
/// such bytes, as one of them in turn.
fn numbers(pool: &dyn Interface, _: &mut Random, _: usize) -> Outcome {
    let mut sequences: Vec<Vec<u8>> = vec![vec![]];
    sequences.extend((0..=255u8).map(|only| vec![only]));
    // Those of five bytes come early: they show the most faults.
    for length in [5, 4, 3, 6] {
        let limits = [0xFF, 0x8F, 0x80, 0x00, 0x7F, 0x10, 0x0F, 0x01];
        for code in 0..limits.len().pow(length) {
            let byte = |place: u32| limits[code / limits.len().pow(place) % limits.len()];
            sequences.push((0..length).map(byte).collect());
        }
        if length == 3 {
            sequences.extend((0..=255u8).flat_map(|first| (0..=255u8).map(move |second| vec![first, second])));
        }
    }
    for (turn, bytes) in sequences.into_iter().enumerate() {
        for n in [1, 4000] {
            check(pool, &bytes, n)?;
        }
        // The same bytes in an image of one cell, all else 0: as K, the first register, the kind, and the left, the right and the
        // value of a pair and of a point.
        const CELL_0: usize = 1 + REGISTERS;
        let pair = [0, 1, CELL_0, CELL_0 + 1, CELL_0 + 2, CELL_0 + 3].map(|place| (place, [0x00]));
        let point = [CELL_0 + 1, CELL_0 + 2, CELL_0 + 3].map(|place| (place, [0x01]));
        let places = [pair.as_slice(), &point].concat();
        let one = turn % places.len();
        for &(place, kind) in if bytes.len() < 6 { &places[..] } else { &places[one..=one] } {
            let mut numbers = [&[0x00][..]; CELL_0 + CELL];
            numbers[0] = &[0x01];
            numbers[CELL_0] = &kind;
            numbers[place] = &bytes;
            let image = numbers.concat();
            check(pool, &image, 1)?;
            load(pool, &[9; 25][..22 + bytes.len() % CELL], &image)?;
        }
    }
    Ok(())
}

/// Images of every number of cells in the form before 02, S-8, with no byte behind them: every one is refused, whatever the pool.
fn former_images(pool: &dyn Interface, random: &mut Random, _: usize) -> Outcome {
    for k in (1..=40).flat_map(|k| [k; 50]).chain(41..=MOST_CELLS) {
        let bytes = generate::former_image(random, k);
        let (larger, any) = (random.between(k, MOST_CELLS), random.between(1, MOST_CELLS));
        let n = random.pick(&[k, k, larger, any]);
        let mut words = generate::noise(random, n);
        load(pool, &words, &bytes)?;
        let what = || format!("{bytes:02X?} for {n} cells");
        equal(what, pool.load(&mut words, &bytes).0.is_err(), true)?;
        equal(what, pool.check_image(&bytes, n as u32).is_err(), true)?;
    }
    Ok(())
}

/// What save writes of these words of a well-formed pool, which stay.
fn saved(pool: &dyn Interface, words: &[u32], random: &mut Random) -> Result<Vec<u8>, String> {
    let n = room(words);
    let what = || format!("save of {words:?}");
    let (mut found, mut out) = (words.to_vec(), vec![0x55; most_bytes(n)]);
    let mut scratch: Vec<u32> = filled(random, 2 * n).collect();
    let answer = pool.save(&mut found, &mut scratch, &mut out);
    out.truncate(answer.map_err(|refusal| format!("{}: refused {refusal}", what()))?);
    equal_words(what, &found, words)?;
    Ok(out)
}

/// The answers to a list of reads, started from these words. They leave every word but the registers.
fn read(pool: &dyn Interface, words: &[u32], reads: &[Call]) -> Result<Vec<Answer>, String> {
    let mut found = words.to_vec();
    let answers = reads.iter().map(|&call| apply(pool, &mut found, call).0).collect();
    found[2..HEADER].copy_from_slice(&words[2..HEADER]);
    equal_words(|| format!("{reads:?} on {words:?}"), &found, words)?;
    Ok(answers)
}

/// "The two saved images are equal exactly when every list of copy, clear, left, right, value, east, north and same gives equal
/// answers on both, each started from its pool as it was" (02, S-9), of two well-formed pools. Answers whether the plans are the
/// same.
fn same_file(pool: &dyn Interface, one: &[u32], other: &[u32], random: &mut Random) -> Result<bool, String> {
    let what = || format!("{one:?} beside {other:?}");
    let graph = |words: &[u32]| decoded(words).ok_or_else(|| format!("not well-formed: {}", what()));
    let distinction = reads::distinguish(&graph(one)?, &graph(other)?);
    let images = (saved(pool, one, random)?, saved(pool, other, random)?);
    let Some(Distinction { difference, reads }) = &distinction else {
        equal(|| format!("image of {}", what()), images.0, images.1)?;
        for count in [4, 20, 60] {
            let reads = generate::reads(random, count);
            equal(|| format!("{reads:?} on {}", what()), read(pool, one, &reads)?, read(pool, other, &reads)?)?;
        }
        return Ok(true);
    };
    equal(|| format!("images equal in spite of {difference:?}: {}", what()), images.0 == images.1, false)?;
    let answers = (read(pool, one, reads)?, read(pool, other, reads)?);
    let differs = (0..reads.len()).find(|&place| answers.0[place] != answers.1[place]);
    equal(|| format!("first difference in {reads:?} on {}", what()), differs, Some(reads.len() - 1))?;
    Ok(false)
}

/// Pools with the same plan, and with nearly the same: the images are equal exactly if no list of reads tells the pools apart. A pool
/// and what is left of it by each form of collect, and a pool and its loaded image, have the same plan.
fn plans(pool: &dyn Interface, random: &mut Random, rounds: usize) -> Outcome {
    for round in 0..rounds {
        let ([one, other], _) = generate::two_plans(random);
        same_file(pool, &one, &other, random)?;
        let (n, mut made) = (room(&one), one.clone());
        let refused = |refusal: u32| format!("refused {refusal} on {one:?}");
        match round % 5 {
            0 => _ = pool.collect(&mut made).map_err(refused)?,
            1 => _ = pool.collect_tally(&mut made, &mut Tally { collections: 0, visits: 0 }).map_err(refused)?,
            2 => _ = pool.collect_stack(&mut made, &mut vec![7; random.below(n / 2 + 1)]).map_err(refused)?,
            3 if n <= MOST_RECURSIVE => _ = pool.collect_recursive(&mut made).map_err(refused)?,
            _ => {
                let image = saved(pool, &one, random)?;
                let larger = random.between(n, MOST_CELLS.min(n + 9));
                made = generate::noise(random, larger);
                pool.load(&mut made, &image).0.map_err(refused)?;
            }
        }
        let what = || format!("{made:?} has the plan of {one:?}");
        equal(what, same_file(pool, &one, &made, random)?, true)?;
    }
    Ok(())
}

/// Every function that takes words, on these words. The calls read register 0.
fn every_function(pool: &dyn Interface, words: &[u32], random: &mut Random) -> Outcome {
    let v = generate::value(random);
    for call in [
        Call::Copy { r: 1, a: 0 },
        Call::Clear { r: 0 },
        Call::New { r: 1, a: 0, b: 1, v },
        Call::Point { r: 1, v, x: v, y: 1 },
        Call::Left { r: 1, a: 0 },
        Call::Right { r: 1, a: 0 },
        Call::SetLeft { a: 0, b: 1 },
        Call::SetRight { a: 0, b: 1 },
        Call::SetValue { a: 0, v },
        Call::Value { a: 0 },
        Call::East { a: 0 },
        Call::North { a: 0 },
        Call::Same { a: 0, b: 1 },
        Call::Collect,
    ] {
        one_call(pool, &mut words.to_vec(), call)?;
    }
    build(pool, FRESH, &mut words.to_vec())?;
    build(pool, WORST_CASE, &mut words.to_vec())?;
    recursive_collect(pool, words)?;
    tally_collect(pool, words, random)?;
    let length = stack_needed(words, random).saturating_sub(random.below(2));
    stack_collect(pool, words, length, random)?;
    exact_saves(pool, words, random)
}

/// The bytes that hold every image of `n` cells: numbers of at most two bytes for K and the registers, and for a cell its kind and
/// three numbers of five.
fn most_bytes(n: usize) -> usize {
    2 * (1 + REGISTERS) + 16 * n
}

/// A small pool with a stack, a scratch, an output and bytes of every length up to beyond what the largest pool needs.
fn every_lent_length(pool: &dyn Interface, random: &mut Random, _: usize) -> Outcome {
    let words = Shape::LeftComb.words(3, random);
    let words = generate::with_leftover(random, words);
    let mut image = image(&words, random);
    let (bytes, longest) = (image.len(), most_bytes(MOST_CELLS) + 10);
    image.resize(longest, random.word() as u8);
    for length in 0..=2 * MOST_CELLS + 10 {
        stack_collect(pool, &words, length, random)?;
        save(pool, &words, length, bytes, random)?;
    }
    for length in 0..=longest {
        load(pool, &words, &image[..length])?;
        check(pool, &image[..length], 3)?;
        save(pool, &words, 6, length, random)?;
    }
    Ok(())
}

/// Every function on a pool of every size, up to beyond the largest. The last cell is read by calls, taken by `new` and `point`,
/// found malformed, and the last cell of an image, a pair and a point.
fn every_size(pool: &dyn Interface, random: &mut Random, _: usize) -> Outcome {
    for n in 0..=MOST_CELLS + 3 {
        let words = generate::last_held(random, n);
        every_function(pool, &words, random)?;
        let last = n as u32;
        for k in [last, last + 1] {
            let mut image = groups(k);
            image.resize(image.len() + REGISTERS + 4 * k as usize, 0);
            if k > 0 && random.once_in(2) {
                let kind = image.len() - 4;
                image[kind..].copy_from_slice(&[1, 0x7F, 0x7E, 0x7D]);
            }
            load(pool, &words, &image)?;
            check(pool, &image, last)?;
        }
        if n == 0 {
            continue;
        }
        let mut changed = words.clone();
        changed[0] = random.pick(&[last - 1, last + 1]);
        one_call(pool, &mut changed, Call::Clear { r: 0 })?;
        // At fault is one link of the last cell, where it is a pair, or its state alone, where nothing leads to it.
        let cell = cell_at(last);
        for link in [cell + 1, cell + 2] {
            let mut changed = words.clone();
            changed[link] = last + 1;
            one_call(pool, &mut changed, Call::Collect)?;
        }
        let mut changed = words.clone();
        for (place, word) in changed.iter_mut().enumerate().skip(2) {
            if *word == last && (place < HEADER || matches!(place % CELL, 0 | 3)) {
                *word = 0;
            }
        }
        changed[cell] = random.pick(&[1, 2, 3, 6]);
        one_call(pool, &mut changed.clone(), Call::Collect)?;
        // The last cell is the head, or there is none: one is taken by `new` and the other by `point`, in turn.
        let v = generate::value(random);
        let mut calls = [Call::New { r: 1, a: 0, b: 0, v }, Call::Point { r: 1, v, x: last, y: v }];
        calls.rotate_left(n % 2);
        changed[1] = last;
        changed[cell..cell + CELL].copy_from_slice(&[FREE, random.below(n + 1) as u32, 5, 6]);
        one_call(pool, &mut changed, calls[0])?;
        let mut changed = words;
        changed[1] = 0;
        one_call(pool, &mut changed, calls[1])?;
    }
    Ok(())
}

/// Words of this length, whether it is that of a pool or not: those of a fresh pool, of a well-formed one, and any. Word 0 fits.
fn of_length(random: &mut Random, length: usize) -> [Vec<u32>; 3] {
    let n = length.saturating_sub(HEADER) / CELL;
    let any: Vec<u32> = (0..length).map(|_| random.word()).collect();
    let mut fresh = vec![n as u32, n.min(1) as u32];
    fresh.resize(HEADER, 0);
    (1..=n).for_each(|i| fresh.extend([FREE, if i < n { i as u32 + 1 } else { 0 }, 0, 0]));
    [fresh, generate::last_held(random, n), vec![n as u32]].map(|mut words| {
        // Behind the cells as they are in the words of any content.
        words.truncate(words_for(n).min(length));
        words.extend(&any[words.len()..]);
        words
    })
}

/// Every function on words of every length near the smallest and the largest, the limits first: fresh, well-formed and any ones,
/// with N, either number beside it and any for word 0; and on longer ones that would be right without their upper bits.
fn lengths(pool: &dyn Interface, random: &mut Random, _: usize) -> Outcome {
    for length in (0..=60).chain(16_018..=16_030).chain(16_000..16_018) {
        for mut words in of_length(random, length) {
            let fits = words.first().copied().unwrap_or(0);
            for first in [fits, fits.wrapping_sub(1), fits + 1, random.word()] {
                words.iter_mut().take(1).for_each(|word| *word = first);
                every_function(pool, &words, random)?;
            }
        }
    }
    let longer = [1, 2, 700, MOST_CELLS].map(|n| (1 << 16) + words_for(n));
    for length in (61..400).chain(15_900..16_000).chain(16_031..16_200).chain(longer) {
        let [.., mut words] = of_length(random, length);
        words[0] %= 1 << 14;
        every_function(pool, &words, random)?;
    }
    Ok(())
}

/// What a function answered and left: the words, a tally, stack or scratch, and an output.
type Left = (&'static str, String, Vec<u32>, Vec<u32>, Vec<u8>);

/// A call that is lent the words, and what else it needs, and tells its answer.
type Told<'a> = &'a dyn Fn(&mut [u32], &mut Vec<u32>, &mut Vec<u8>) -> String;

/// What every function that is lent words, but fresh, answers and leaves on these words of a pool. The arguments are the same for the same random
/// numbers.
fn every_outcome(pool: &dyn Interface, words: &[u32], random: &mut Random) -> Vec<Left> {
    let n = room(words);
    let mut list = Vec::new();
    for call in generate::calls(random, 24) {
        let mut words = words.to_vec();
        let answer = format!("{call:?}: {:?}", apply(pool, &mut words, call));
        list.push(("call", answer, words, vec![], vec![]));
    }
    let (stack, bytes) = (random.below(n + 2), random.below(most_bytes(n)));
    let image = decoded(words).map_or_else(|| generate::image(random, n), |pool| pool.image());
    let mut keep = |name: &'static str, call: Told| {
        let (mut words, mut lent, mut out) = (words.to_vec(), Vec::new(), Vec::new());
        let answer = call(&mut words, &mut lent, &mut out);
        list.push((name, answer, words, lent, out));
    };
    keep("worst case", &|words, _, _| format!("{:?}", pool.worst_case(words)));
    keep("recursive", &|words, _, _| format!("{:?}", pool.collect_recursive(words)));
    keep("tally", &|words, lent, _| {
        let mut tally = Tally { collections: 7, visits: u32::MAX - 30 };
        let answer = pool.collect_tally(words, &mut tally);
        lent.extend([tally.collections, tally.visits]);
        format!("{answer:?}")
    });
    for length in [0, 1, stack] {
        keep("stack", &|words, lent, _| {
            lent.resize(length, 9);
            format!("{:?}", pool.collect_stack(words, lent))
        });
    }
    for (scratch, bytes) in [(2 * n, most_bytes(n)), (2 * n - 1, most_bytes(n)), (2 * n, bytes)] {
        keep("save", &|words, lent, out| {
            lent.resize(scratch, 9);
            out.resize(bytes, 0x55);
            format!("{:?}", pool.save(words, lent, out))
        });
    }
    for bytes in [&image, &image[..image.len() / 2]] {
        keep("load", &|words, _, _| format!("{:?}", pool.load(words, bytes)));
    }
    list
}

/// Words of any kind of content, as the words of a pool without any left over, and with one to three of any content: the functions
/// answer and leave the same, and the words left over are as they were. So it is for a list of calls from a fresh pool on, where
/// fresh answers how many are left over.
fn leftovers(pool: &dyn Interface, random: &mut Random, rounds: usize) -> Outcome {
    for _ in 0..rounds {
        let mut words = generate::words(random);
        let n = room(&words);
        if !(1..=MOST_CELLS).contains(&n) {
            continue;
        }
        words.truncate(words_for(n));
        // Now and then the head or a register leads past the last cell.
        if random.once_in(3) {
            words[random.between(1, 3)] = n as u32 + 1;
        }
        let list = generate::calls(random, 60);
        let numbers = random.clone();
        let expected = every_outcome(pool, &words, &mut numbers.clone());
        let from_fresh = |words: &mut [u32]| {
            let answer = pool.fresh(words);
            (answer, list.iter().map(|&call| apply(pool, words, call)).collect::<Vec<_>>())
        };
        let mut run = words.clone();
        let (fresh, answers) = from_fresh(&mut run);
        equal(|| format!("fresh of {n}"), fresh, Ok((n as u32, 0)))?;
        for e in 1..CELL {
            let leftover = generate::leftover(random, n, e);
            let longer = [words.as_slice(), &leftover].concat();
            let what = || format!("{leftover:?} left over behind {words:?}");
            for (found, expected) in every_outcome(pool, &longer, &mut numbers.clone()).into_iter().zip(&expected) {
                let (name, answer, mut left, lent, out) = found;
                equal_words(what, &left.split_off(words_for(n)), &leftover)
                    .map_err(|text| format!("{name}: {text}"))?;
                equal(what, &(name, answer, left, lent, out), expected)?;
            }
            let mut found = longer;
            equal(what, from_fresh(&mut found), (Ok((n as u32, e as u32)), answers.clone()))?;
            equal_words(what, &found.split_off(words_for(n)), &leftover)?;
            equal_words(what, &found, &run)?;
        }
    }
    Ok(())
}

/// The percentage of kept cells: every one of up to 400 cells and of the largest pool, and for every N the numbers beside
/// which the percent changes, among them every exact half; the ends, any, and numbers out of the limits.
fn percentages(pool: &dyn Interface, random: &mut Random, _: usize) -> Outcome {
    for n in (0..=MOST_CELLS as u32 + 10).chain([1 << 16, (1 << 16) + 100, u32::MAX - 1, u32::MAX]) {
        let (every, percents) = match n {
            0..=400 | 4_000 => (n, 100),
            401..3_990 => (0, 100),
            3_990..=4_010 => (200, 100),
            _ => (0, 0),
        };
        // A percent and a half is 3 * n / 200 cells, and so on: the number below, and either one beside it.
        let halves = (0..percents).map(|percent| (2 * percent + 1) * n / 200);
        let around = halves.flat_map(|kept| [kept.wrapping_sub(1), kept, kept + 1]);
        let ends = [0, n / 2, n.wrapping_sub(1), n, n.wrapping_add(1), n.wrapping_add(1 << 16), u32::MAX];
        let any = [(); 3].map(|()| random.below(n as usize + 1) as u32);
        let more = [(); 3].map(|()| random.word());
        for kept in (0..every).chain(around).chain(ends).chain(any).chain(more) {
            let what = || format!("percentage of {kept} of {n}");
            equal(what, pool.occupancy(kept, n), Model.occupancy(kept, n))?;
        }
    }
    Ok(())
}
