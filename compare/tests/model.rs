//! The model against itself, against the reference model, and what the generated inputs reach.

use cellpool_compare::cause::{Cause, Link, Name, Place};
use cellpool_compare::checks::{self, Comparison};
use cellpool_compare::generate::{self, Shape};
use cellpool_compare::model::{groups, parse, Cell, Limited, Model, Pool};
use cellpool_compare::random::{rounds, seed, Random};
use cellpool_compare::reads::{distinguish, is_read, Difference, Distinction};
use cellpool_compare::{apply, is_used, Answer, Call, Interface, Tally, CELL, FREE, HEADER, MOST_CELLS, PAIR, POINT};
use std::cell::RefCell;
use std::cmp::Ordering::{Equal, Greater, Less};
use std::collections::{BTreeMap, BTreeSet};
use std::mem::discriminant;

fn random(stream: u64) -> Random {
    Random::new(seed().wrapping_mul(1_000).wrapping_add(100 + stream))
}

/// Well-formed pools of many kinds.
fn well_formed_pools(random: &mut Random, count: usize) -> Vec<Pool> {
    let pools = generate::well_formed_pools(random, count);
    pools.map(|words| Pool::decode(&words).expect("the size is right")).collect()
}

#[test]
fn three_markers_of_the_model_agree() {
    for pool in well_formed_pools(&mut random(1), rounds(20_000)) {
        assert!(pool.well_formed());
        let reached = pool.reached();
        assert_eq!(reached, pool.reached_recursively());
        assert_eq!(reached, pool.depth_first().into_iter().collect());
        let mut in_hand = Vec::new();
        pool.mark_with_stack(|hand| in_hand.push(hand.cell));
        in_hand.sort_unstable();
        assert!(in_hand.iter().eq(&reached), "each cell that is reached is in hand once");
        with_every_limit(&pool, &reached);
        // A push marks two cells, and the first cell was marked before.
        assert!(pool.stack_needed() <= reached.len().saturating_sub(1) / 2);
        assert!(pool.stack_needed() <= told_apart(&pool).stack_needed(), "a stack that was enough still is");
    }
}

/// The stack marker with several lengths: it marks what is reached or gives up, and makes no check exactly if it has as
/// many words as entries without a limit. A push marks two cells, and each check belongs to one.
fn with_every_limit(pool: &Pool, reached: &BTreeSet<u32>) {
    let (needed, most) = (pool.stack_needed(), reached.len().saturating_sub(1) / 2);
    for words in [0, 1, 2, 3, 5, 10, needed.saturating_sub(1), needed, most] {
        let mut dropped = 0;
        let mut vain = 0;
        let limited = pool.mark_with_words(
            words,
            |_, _| (),
            |check| {
                assert_eq!(check.walks.len(), words, "a check looks at every entry");
                dropped += check.walks.iter().filter(|walk| walk.kept.is_none()).count();
                vain += u32::from(check.walks.iter().all(|walk| walk.kept.is_some()));
            },
        );
        let marked = limited.marked();
        assert_eq!((limited.enough, vain), if limited.enough { (true, 0) } else { (false, 1) });
        assert!(if limited.enough { marked == *reached } else { marked.is_subset(reached) }, "{words} words: {pool:?}");
        assert_eq!(limited.checks == 0, words >= needed, "{words} words: {pool:?}");
        assert!(limited.checks as usize <= most && dropped + vain as usize >= limited.checks as usize);
        assert_eq!(limited.checks - vain == 0, dropped == 0);
        assert!(words > 0 || limited.checks == u32::from(!limited.enough));
    }
}

#[test]
fn the_depth_first_order_is_that_of_the_recursive_procedure() {
    fn visit(pool: &Pool, link: u32, order: &mut Vec<u32>) {
        if link != 0 && !order.contains(&link) {
            order.push(link);
            let (left, right) = pool.cell(link).links();
            visit(pool, left, order);
            visit(pool, right, order);
        }
    }
    for pool in well_formed_pools(&mut random(2), rounds(5_000)) {
        let mut order = Vec::new();
        for link in pool.registers {
            visit(&pool, link, &mut order);
        }
        assert_eq!(pool.depth_first(), order);
    }
}

/// The pool with equal links told apart: the right one leads to a leaf of its own. The stack marker needs as many words for it as
/// it did for the pool when two equal unmarked links were both unmarked, and one of them was pushed.
fn told_apart(pool: &Pool) -> Pool {
    let mut pool = pool.clone();
    for place in 0..pool.cells.len() {
        let Cell { state, left, right, .. } = pool.cells[place];
        if state == PAIR && left == right && left != 0 {
            pool.cells.push(Cell { state: PAIR, left: 0, right: 0, value: 0 });
            pool.cells[place].right = pool.n();
        }
    }
    pool
}

#[test]
fn stack_words_of_the_known_shapes() {
    let mut random = random(3);
    // What is needed, and what was when two equal unmarked links were two.
    for (shape, n, needed, before) in [
        (Shape::LeftChain, 3_000, 0, 0),
        (Shape::RightChain, 2, 0, 1),
        (Shape::RightChain, 3_000, 1, 1),
        (Shape::PseudoChain, 3_000, 999, 999),
        (Shape::LeftComb, 3_000, 1_499, 1_499),
        (Shape::Ladder, 3_000, 1_499, 1_499),
        (Shape::EqualChain, 1, 0, 0),
        (Shape::EqualChain, 2, 0, 1),
        (Shape::EqualChain, 3_000, 0, 2_999),
        (Shape::Balanced, 2_047, 10, 10),
    ] {
        let words = shape.words(n, &mut random);
        let pool = Pool::decode(&words).expect("the size is right");
        assert_eq!((pool.stack_needed(), told_apart(&pool).stack_needed()), (needed, before), "{}", shape.name());
    }
}

/// The worst case of this size, built by the model on words of any content.
fn worst_case(random: &mut Random, n: usize) -> Pool {
    let mut words = generate::noise(random, n);
    assert_eq!(Model.worst_case(&mut words), Ok::<u32, u32>((n as u32 - 1) / 2));
    Pool::decode(&words).expect("the size is right")
}

#[test]
fn the_worst_case_has_the_links_that_are_named() {
    let mut random = random(8);
    for n in (1..=200).chain([3_999, 4_000]) {
        let pool = worst_case(&mut random, n);
        assert!(pool.well_formed());
        assert_eq!((pool.cells.len(), pool.head, pool.registers[0]), (n, 0, 1));
        assert_eq!(pool.registers[1..], [0; 15]);
        assert!(pool.cells.iter().all(|cell| (cell.state, cell.value) == (PAIR, 0)));
        // A link leads to each cell but the first, and no other link leads to a cell: to an even one the right link of the cell
        // before it, to an odd one the left link of the odd cell before it.
        for i in 2..=n as u32 {
            let link = if i % 2 == 0 { pool.cell(i - 1).right } else { pool.cell(i - 2).left };
            assert_eq!(link, i, "of {n} cells");
        }
        let links = pool.cells.iter().flat_map(|cell| [cell.left, cell.right]);
        assert_eq!(links.filter(|&link| link != 0).count(), n - 1);
        assert_eq!(pool.reached().len(), n);
        assert_eq!(pool.stack_needed(), (n - 1) / 2);
        // The shape of the tests and of the benchmark has the same links.
        let mut shape = Pool::decode(&Shape::LeftComb.words(n, &mut random)).expect("the size is right");
        shape.cells.iter_mut().for_each(|cell| cell.value = 0);
        assert_eq!(shape, pool);
    }
}

/// Go through every graph of the pool's cells, from its registers. The links of a cell are chosen when the stack marker has it in
/// hand, and no longer once all cells are marked: nothing depends on them then. Shown is a graph and for how many it stands: those
/// with any links in the place of the ones that were not chosen, which are nil.
fn every_graph(pool: &mut Pool, chosen: &mut Vec<u32>, show: &mut impl FnMut(&Pool, u64)) {
    let n = pool.n();
    // The first cell in hand whose links are not chosen, and how many are marked then: those that were in hand, this one, and
    // the entries.
    let mut first = None;
    pool.mark_with_stack(|hand| {
        if first.is_none() && !chosen.contains(&hand.cell) {
            first = Some((hand.cell, chosen.len() + 1 + hand.entries.len()));
        }
    });
    let Some((cell, _)) = first.filter(|&(_, marked)| marked < n as usize) else {
        return show(pool, u64::from(n + 1).pow(2 * (n - chosen.len() as u32)));
    };
    chosen.push(cell);
    let before = *pool.cell(cell);
    for (left, right) in (0..=n).flat_map(|left| (0..=n).map(move |right| (left, right))) {
        pool.cells[cell as usize - 1] = Cell { left, right, ..before };
        every_graph(pool, chosen, show);
    }
    pool.cells[cell as usize - 1] = before;
    chosen.pop();
}

/// A pool of `n` used cells without links, with these registers.
fn without_links(n: u32, registers: &[u32]) -> Pool {
    let cell = Cell { state: PAIR, left: 0, right: 0, value: 0 };
    let mut pool = Pool { head: 0, registers: [0; 16], cells: vec![cell; n as usize] };
    pool.registers[..registers.len()].copy_from_slice(registers);
    pool
}

/// How many graphs of `n` cells there are by the entries that the stack marker holds at most, from these registers.
fn graphs_by_entries(n: u32, registers: &[u32]) -> Vec<u64> {
    let mut pool = without_links(n, registers);
    let mut graphs = vec![0; n as usize + 1];
    every_graph(&mut pool, &mut Vec::new(), &mut |pool, count| graphs[pool.stack_needed()] += count);
    assert_eq!(graphs.iter().sum::<u64>(), u64::from(n + 1).pow(2 * n), "all graphs of {n} cells");
    graphs
}

#[test]
fn the_graphs_by_entries_are_those_of_all_links() {
    for n in 1..=4 {
        let mut graphs = vec![0; n as usize + 1];
        let mut pool = without_links(n, &[1]);
        for code in 0..(n + 1).pow(2 * n) {
            let link = |place: usize| code / (n + 1).pow(place as u32) % (n + 1);
            for (place, cell) in pool.cells.iter_mut().enumerate() {
                (cell.left, cell.right) = (link(2 * place), link(2 * place + 1));
            }
            graphs[pool.stack_needed()] += 1;
        }
        assert_eq!(graphs_by_entries(n, &[1]), graphs, "{n} cells");
    }
}

#[test]
fn no_small_pool_takes_more_stack_words_than_the_worst_case() {
    for n in 1..=5 {
        let graphs = graphs_by_entries(n, &[1]);
        let most = (n as usize - 1) / 2;
        assert_eq!(graphs.iter().rposition(|&count| count > 0), Some(most), "{n} cells: {graphs:?}");
        if n % 2 == 1 {
            // By hand: so many are held exactly if each of the first cells in hand leads to two new ones, which takes the n - 1
            // others in any order. The n + 1 links of the other cells are any.
            let orders: u64 = (1..u64::from(n)).product();
            assert_eq!(graphs[most], orders * u64::from(n + 1).pow(n + 1), "{n} cells: {graphs:?}");
        }
    }
    // Three cells, with every content of three registers: no more can mark a cell.
    for content in 0..64 {
        let graphs = graphs_by_entries(3, &[content % 4, content / 4 % 4, content / 16]);
        assert_eq!(graphs[2..], [0, 0], "registers {content}: {graphs:?}");
    }
}

#[test]
fn no_random_pool_takes_more_stack_words_than_the_worst_case() {
    let mut random = random(9);
    let mut reached = BTreeMap::new();
    for round in 0..rounds(40_000) {
        let n = if round % 100 == 0 { random.pick(&[3_999, 4_000]) } else { random.between(6, 40) };
        // Any pool, or the worst case with some links and registers changed.
        let mut pool = Pool::decode(&generate::well_formed(&mut random, n)).expect("the size is right");
        if !random.once_in(3) {
            pool = worst_case(&mut random, n);
            for _ in 0..random.below(6) {
                let (cell, link) = (random.below(n), random.below(n + 1) as u32);
                match random.below(4) {
                    0 => pool.cells[cell].left = link,
                    1 => pool.cells[cell].right = link,
                    _ => pool.registers[random.below(16)] = link,
                }
            }
        }
        assert!(pool.well_formed());
        let needed = pool.stack_needed();
        assert!(needed <= (n - 1) / 2, "{needed} words for {pool:?}");
        *reached.entry(n).or_insert(0) += usize::from(needed == (n - 1) / 2 && pool.registers[1..] != [0; 15]);
    }
    assert_eq!(reached.len(), 37);
    assert!(reached.values().all(|&count| count > 0), "with several registers the most are held: {reached:?}");
}

#[test]
fn a_saved_image_loads_as_the_pool_that_saves_the_same_image() {
    for pool in well_formed_pools(&mut random(4), rounds(5_000)) {
        let image = pool.image();
        let mut words = vec![7; 18 + 4 * pool.cells.len() + image.len() % 4];
        assert_eq!(Model.load(&mut words, &image), (Ok::<(), u32>(()), image.len()));
        let loaded = Pool::decode(&words).expect("the size is right");
        assert!(loaded.well_formed());
        assert_eq!(loaded.image(), image);
        assert_eq!(loaded.reached(), (1..=pool.reached().len() as u32).collect());
    }
}

#[test]
fn a_number_is_read_in_the_one_form_in_which_it_is_written() {
    let mut random = random(6);
    // An image of one pair, up to its value.
    let front = [[1].as_slice(), &[0; 19]].concat();
    let value = |written: &[u8]| match parse(&[&front, written].concat(), 1) {
        Ok((pool, end)) if end == front.len() + written.len() => Some(pool.cell(1).value),
        _ => None,
    };
    let (mut read, mut refused) = (0, 0);
    for _ in 0..rounds(200_000) {
        let number = generate::value(&mut random);
        assert_eq!(value(&groups(number)), Some(number));
        let mut written: Vec<u8> = (0..random.below(5)).map(|_| random.word() as u8 | 0x80).collect();
        written.push(random.pick(&[0x00, 0x01, 0x0F, 0x10, 0x7F]));
        if random.once_in(4) {
            written.iter_mut().for_each(|byte| *byte &= 0x80);
        }
        match value(&written) {
            Some(number) => {
                assert_eq!(written, groups(number));
                read += 1;
            }
            None => refused += 1,
        }
    }
    assert!(read > 1_000 && refused > 1_000, "{read} read, {refused} refused");
}

#[test]
fn an_image_is_saved_as_it_was_read_exactly_if_its_cells_are_in_the_order_of_the_visits() {
    let mut random = random(7);
    let (mut same, mut other) = (0, 0);
    for _ in 0..rounds(50_000) {
        let n = random.between(1, 3);
        let bytes = generate::image(&mut random, n);
        let Ok((pool, end)) = parse(&bytes, n) else { continue };
        let k = pool.cells.iter().filter(|cell| is_used(cell.state)).count() as u32;
        let in_order = pool.depth_first() == (1..=k).collect::<Vec<u32>>();
        assert_eq!(pool.image() == bytes[..end], in_order, "{bytes:02X?}");
        *(if in_order { &mut same } else { &mut other }) += 1;
    }
    assert!(same > 1_000 && other > 1_000, "{same} the same, {other} not");
}

/// The words of every well-formed pool of one or two cells, with registers 0 and 1, and no other number above 1 but links.
fn small_pools() -> Vec<Vec<u32>> {
    let mut pools = Vec::new();
    for n in 1..=2 {
        let numbers = |most: u32| (0..=most).flat_map(move |a| (0..=most).map(move |b| [a, b]));
        let used = [(PAIR, n), (POINT, 1)].into_iter().flat_map(|(state, most)| {
            numbers(most).flat_map(move |[left, right]| [0, 1].map(|value| vec![state, left, right, value]))
        });
        let contents: Vec<Vec<u32>> = [vec![FREE, 0, 0, 0]].into_iter().chain(used).collect();
        let mut cells = vec![vec![]];
        for _ in 0..n {
            let more = |front: &Vec<u32>| contents.iter().map(|cell| [front.as_slice(), cell].concat()).collect();
            cells = cells.iter().flat_map::<Vec<Vec<u32>>, _>(more).collect();
        }
        for registers in numbers(n) {
            let mut front = vec![n, 0];
            front.extend(registers);
            front.resize(HEADER, 0);
            pools.extend(cells.iter().map(|cells| [front.as_slice(), cells].concat()));
        }
    }
    pools.retain(|words| decoded(words).well_formed());
    pools
}

fn decoded(words: &[u32]) -> Pool {
    Pool::decode(words).expect("the size is right")
}

/// The eight reads on registers 0 and 1.
fn reads_on_two_registers() -> Vec<Call> {
    let two = || [(0, 0), (0, 1), (1, 0), (1, 1)].into_iter();
    let mut reads: Vec<Call> = two().map(|(r, a)| Call::Copy { r, a }).collect();
    reads.extend(two().map(|(r, a)| Call::Left { r, a }));
    reads.extend(two().map(|(r, a)| Call::Right { r, a }));
    reads.extend(two().map(|(a, b)| Call::Same { a, b }));
    for a in [0, 1] {
        reads.extend([Call::Clear { r: a }, Call::Value { a }, Call::East { a }, Call::North { a }]);
    }
    reads
}

/// What each read answers on each of the pools, and which of the pools it leaves.
fn read_all(pools: &[Vec<u32>], reads: &[Call]) -> Vec<Vec<(Answer, usize)>> {
    let places: BTreeMap<&Vec<u32>, usize> = pools.iter().enumerate().map(|(place, words)| (words, place)).collect();
    let read = |words: &Vec<u32>, call: Call| {
        let mut left = words.clone();
        let (answer, _) = apply(&Model, &mut left, call);
        (answer, places[&left])
    };
    pools.iter().map(|words| reads.iter().map(|&call| read(words, call)).collect()).collect()
}

/// The pools by their answers to all lists of reads: two have the same number exactly if no list gives other answers on one than on
/// the other. Answers also how long a list has to be at most. The answers to a list are that to its first read, and those to the
/// others from what that leaves; where lists of one read more tell no more pools apart, longer ones do not either.
fn by_answers(outcomes: &[Vec<(Answer, usize)>]) -> (Vec<usize>, usize) {
    let (mut classes, mut count, mut length) = (vec![0; outcomes.len()], 1, 0);
    loop {
        let mut numbers = BTreeMap::new();
        let longer = |outcome: &Vec<(Answer, usize)>| {
            let told: Vec<_> = outcome.iter().map(|&(answer, left)| (answer, classes[left])).collect();
            let next = numbers.len();
            *numbers.entry(told).or_insert(next)
        };
        classes = outcomes.iter().map(longer).collect();
        if numbers.len() == count {
            return (classes, length);
        }
        (count, length) = (numbers.len(), length + 1);
    }
}

/// "The two saved images are equal exactly when every list of copy, clear, left, right, value, east, north and same gives equal
/// answers on both, each started from its pool as it was" (02, S-9): for all pools of one or two cells with small numbers, and every
/// list on two registers. The search finds a list exactly where there is one.
#[test]
fn small_pools_have_equal_images_exactly_if_every_list_of_reads_gives_equal_answers() {
    let (words, reads) = (small_pools(), reads_on_two_registers());
    let outcomes = read_all(&words, &reads);
    let (classes, length) = by_answers(&outcomes);
    assert_eq!((words.len(), length), (6_278, 3));
    // The first pool of each class stands for it.
    let pools: Vec<Pool> = words.iter().map(|words| decoded(words)).collect();
    let mut first = BTreeMap::new();
    for (place, &class) in classes.iter().enumerate() {
        let first = *first.entry(class).or_insert(place);
        assert_eq!(pools[place].image(), pools[first].image(), "{:?}", (&words[place], &words[first]));
        assert_eq!(distinguish(&pools[place], &pools[first]), None, "{:?}", (&words[place], &words[first]));
        assert_eq!(distinguish(&pools[first], &pools[place]), None, "{:?}", (&words[first], &words[place]));
    }
    assert_eq!(first.len(), 1_505);
    let images: BTreeSet<Vec<u8>> = first.values().map(|&place| pools[place].image()).collect();
    assert_eq!(images.len(), first.len(), "an image for each class");
    let answers = |mut place: usize, list: &[Call]| -> Vec<Answer> {
        let mut answer = |call: &Call| {
            let read = reads.iter().position(|read| read == call).expect("the list is of reads on two registers");
            let (answer, left) = outcomes[place][read];
            place = left;
            answer
        };
        list.iter().map(&mut answer).collect()
    };
    // For some pools, and one of the same class or any: every list of three reads, one after the other.
    let mut random = random(12);
    for turn in 0..40 {
        let one = random.below(words.len());
        let alike: Vec<usize> = (0..words.len()).filter(|&place| classes[place] == classes[one]).collect();
        let other = if turn % 2 == 0 { random.pick(&alike) } else { random.below(words.len()) };
        let run = |words: &[u32], list: &[Call]| -> Vec<Answer> {
            let mut left = words.to_vec();
            list.iter().map(|&call| apply(&Model, &mut left, call).0).collect()
        };
        let list = |code: usize| [0, 1, 2].map(|place| reads[code / reads.len().pow(place) % reads.len()]);
        let differs = |list: [Call; 3]| run(&words[one], &list) != run(&words[other], &list);
        let apart = (0..reads.len().pow(3)).any(|code| differs(list(code)));
        assert_eq!(apart, classes[one] != classes[other], "{:?}", (&words[one], &words[other]));
    }
    let mut seen = BTreeMap::new();
    for (&one, &other) in first.values().flat_map(|one| first.values().map(move |other| (one, other))) {
        if one != other {
            let pair = || (&words[one], &words[other]);
            let found = distinguish(&pools[one], &pools[other]);
            let Distinction { difference, reads } = found.unwrap_or_else(|| panic!("no list for {:?}", pair()));
            let (mut a, mut b) = (answers(one, &reads), answers(other, &reads));
            assert_ne!(a.pop(), b.pop(), "{reads:?} on {:?}", pair());
            assert_eq!(a, b, "{reads:?} on {:?}", pair());
            *seen.entry(difference).or_insert(0) += 1;
        }
    }
    assert_eq!(seen.len(), DIFFERENCES.len());
    assert!(seen.values().all(|&count| count > 5_000), "{seen:?}");
}

/// Each read but copy and clear tells what no list of the others does: without it some of the small pools with different images are
/// not told apart. Copy and clear tell nothing more: left and right put what they find in any register too.
#[test]
fn every_read_but_copy_and_clear_is_needed() {
    let (words, reads) = (small_pools(), reads_on_two_registers());
    let outcomes = read_all(&words, &reads);
    let told_apart = |without: &[Call]| {
        let kept = |call: &Call| !without.iter().any(|other| discriminant(other) == discriminant(call));
        let kept_of = |outcome: &Vec<(Answer, usize)>| {
            reads.iter().zip(outcome).filter(|(call, _)| kept(call)).map(|(_, &told)| told).collect()
        };
        let outcomes: Vec<Vec<(Answer, usize)>> = outcomes.iter().map(kept_of).collect();
        by_answers(&outcomes).0.into_iter().collect::<BTreeSet<usize>>().len()
    };
    let (copy, clear) = (Call::Copy { r: 0, a: 0 }, Call::Clear { r: 0 });
    let images: BTreeSet<Vec<u8>> = words.iter().map(|words| decoded(words).image()).collect();
    assert_eq!(told_apart(&[copy, clear]), images.len());
    let needed = [
        Call::Left { r: 0, a: 0 },
        Call::Right { r: 0, a: 0 },
        Call::Value { a: 0 },
        Call::East { a: 0 },
        Call::North { a: 0 },
        Call::Same { a: 0, b: 0 },
    ];
    for call in needed {
        let told = told_apart(&[call]);
        assert!(told < images.len(), "{told} without {call:?}");
    }
}

const DIFFERENCES: [Difference; 7] = [
    Difference::Nil,
    Difference::Kind,
    Difference::Value,
    Difference::X,
    Difference::Y,
    Difference::SharedInFirst,
    Difference::SharedInSecond,
];

/// What the pools of two equal plans have different.
const EQUAL_PLANS: [&str; 8] = [
    "another size, with fewer cells in the first",
    "another size, with more cells in the first",
    "other numbers",
    "more garbage in the first",
    "less garbage in the first",
    "garbage that leads to kept cells in one of them",
    "other free cells at the head",
    "more or fewer words left over",
];

/// In which ways the words of two pools with equal plans differ.
fn equal_plans(words: &[Vec<u32>; 2]) -> BTreeSet<&'static str> {
    let pools = [decoded(&words[0]), decoded(&words[1])];
    let [one, other] = &pools;
    let garbage = |pool: &Pool| -> Vec<u32> {
        let reached = pool.reached();
        (1..=pool.n()).filter(|i| is_used(pool.cell(*i).state) && !reached.contains(i)).collect()
    };
    let leads_to_kept = |pool: &Pool| {
        let reached = pool.reached();
        garbage(pool).iter().any(|&i| reached.contains(&pool.cell(i).links().0))
    };
    let (n, count) = (pools.each_ref().map(Pool::n), pools.each_ref().map(|pool| garbage(pool).len()));
    let ways = [
        n[0] < n[1],
        n[0] > n[1],
        one.depth_first() != other.depth_first(),
        count[0] > count[1],
        count[0] < count[1],
        pools.iter().any(leads_to_kept),
        one.head != other.head,
        words[0].len() % CELL != words[1].len() % CELL,
    ];
    EQUAL_PLANS.into_iter().zip(ways).filter(|(_, way)| *way).map(|(name, _)| name).collect()
}

/// The registers that a read names.
fn named(call: &Call) -> Vec<u32> {
    match *call {
        Call::Copy { r, a } | Call::Left { r, a } | Call::Right { r, a } => vec![r, a],
        Call::Same { a, b } => vec![a, b],
        Call::Clear { r } => vec![r],
        Call::Value { a } | Call::East { a } | Call::North { a } => vec![a],
        _ => panic!("{call:?} is no read"),
    }
}

#[test]
fn the_model_saves_equal_images_exactly_if_no_list_of_reads_tells_the_pools_apart() {
    checks::PLANS.on(&Model).unwrap();
}

#[test]
fn the_random_plans_reach_every_difference_and_every_way_to_be_equal() {
    let mut random = random(11);
    let (mut differences, mut equal) = (BTreeMap::new(), BTreeMap::new());
    let (mut changes, mut by_chance, mut sharing) = (BTreeMap::new(), 0, BTreeMap::new());
    let (mut longest, mut largest) = (0, 0);
    for _ in 0..rounds(20_000) {
        let (words, change) = generate::two_plans(&mut random);
        let pools = [decoded(&words[0]), decoded(&words[1])];
        assert!(pools.iter().all(Pool::well_formed), "{words:?}");
        largest = largest.max(pools[0].n()).max(pools[1].n());
        let Some(Distinction { difference, reads }) = distinguish(&pools[0], &pools[1]) else {
            assert_eq!(pools[0].image(), pools[1].image(), "{words:?}");
            by_chance += usize::from(change.is_some());
            for way in equal_plans(&words) {
                *equal.entry(way).or_insert(0) += 1;
            }
            continue;
        };
        assert_ne!(pools[0].image(), pools[1].image(), "{words:?}");
        assert!(reads.iter().all(|&call| is_read(call)), "{reads:?}");
        assert!(reads.iter().flat_map(named).collect::<BTreeSet<u32>>().len() <= 2, "{reads:?}");
        *differences.entry(difference).or_insert(0) += 1;
        // Only a change makes a difference.
        *changes.entry(change.expect("the plan was changed")).or_insert(0) += 1;
        if let (Some(Call::Same { .. }), Some(first)) = (reads.last(), reads.first()) {
            let from = if matches!(first, Call::Copy { .. }) { "one register" } else { "two registers" };
            *sharing.entry((difference, from)).or_insert(0) += 1;
        }
        longest = longest.max(reads.len());
    }
    assert!(DIFFERENCES.iter().all(|kind| differences.get(kind) > Some(&100)), "{differences:?}");
    assert!(EQUAL_PLANS.iter().all(|way| equal.get(way) > Some(&100)), "{equal:?}");
    assert!(changes.len() == 10 && changes.values().all(|&count| count > 100), "{changes:?}");
    assert!(sharing.len() == 4 && sharing.values().all(|&count| count > 100), "{sharing:?}");
    assert!(by_chance > 100 && longest > 100 && largest > 3_000, "{by_chance}, {longest}, {largest}");
}

/// "The percent goes to the nearest whole number, and an exact half to the even one" (02, S-7), for up to 400 cells and every
/// N that has halves: twice the distance is less than n, counted in n-th parts of a percent, or it is n and the percent is even.
#[test]
fn the_percent_is_the_nearest_and_a_half_goes_to_the_even_one() {
    let mut halves = 0;
    for n in (1..=400).chain((408..=MOST_CELLS as u32).step_by(8)) {
        let percents: Result<Vec<u32>, u32> = (0..=n).map(|kept| Model.occupancy(kept, n)).collect();
        let percents = percents.expect("n and kept are within their limits");
        for (kept, percent) in (0..=n).zip(&percents) {
            let twice = 2 * (100 * kept).abs_diff(percent * n);
            assert!(twice < n || (twice == n && percent % 2 == 0), "{kept} of {n}: {percent}");
            halves += u32::from(twice == n);
            // 100 is even, so that the percents of what is kept and of what is free make 100, also where both are halves.
            assert_eq!(percent + percents[(n - kept) as usize], 100, "{kept} of {n}");
        }
    }
    // An odd multiple of n / 200 is a whole number only if 8 divides n: each of 100 where 200 divides n, every fifth one where
    // 40 does, and else the four odd eighths of n. 8 divides 500 numbers up to 4,000, 40 divides 100 and 200 divides 20.
    assert_eq!(halves, 20 * 100 + 80 * 20 + 400 * 4);
}

#[test]
fn the_model_answers_as_the_reference_model() {
    checks::against_reference(&Model, &mut random(5), rounds(10_000)).unwrap();
}

/// Points come at every rate, from none to all: how many of ten cells of a pool, a list of calls, a script or an image, where it has
/// at least twenty.
#[test]
fn points_come_at_every_rate() {
    let mut random = random(10);
    let in_words = |words: &[u32]| {
        let states = || words.get(HEADER..).unwrap_or_default().chunks_exact(CELL).map(|cell| cell[0]);
        (states().filter(|&state| state == PAIR).count(), states().filter(|&state| state == POINT).count())
    };
    let in_image = |image: &[u8]| {
        let pool = parse(image, MOST_CELLS).map(|(pool, _)| pool.cells).unwrap_or_default();
        let count = |state: u32| pool.iter().filter(|cell| cell.state == state).count();
        (count(PAIR), count(POINT))
    };
    type Source<'a> = (&'a str, &'a dyn Fn(&mut Random) -> (usize, usize));
    let sources: [Source; 6] = [
        ("well-formed pools", &|random| in_words(&generate::well_formed(random, 60))),
        ("branches", &|random| in_words(&generate::branches(random, 80))),
        ("damaged pools", &|random| {
            let mut words = generate::well_formed(random, 60);
            generate::damage(random, &mut words);
            in_words(&words)
        }),
        ("lists of calls", &|random| {
            let calls = generate::calls(random, 120);
            let pairs = calls.iter().filter(|call| matches!(call, Call::New { .. })).count();
            (pairs, calls.iter().filter(|call| matches!(call, Call::Point { .. })).count())
        }),
        ("scripts", &|random| {
            let script = String::from_utf8_lossy(&generate::script(random, 120)).into_owned();
            let count = |letter: &str| script.lines().filter(|line| line.starts_with(letter)).count();
            (count("n "), count("p "))
        }),
        ("images", &|random| in_image(&generate::image(random, 60))),
    ];
    for (name, source) in sources {
        // None, more than that up to each tenth, and all.
        let mut rates = [0; 12];
        for _ in 0..rounds(3_000) {
            let (pairs, points) = source(&mut random);
            match (pairs, points) {
                _ if pairs + points < 20 => {}
                (_, 0) => rates[0] += 1,
                (0, _) => rates[11] += 1,
                _ => rates[1 + 10 * points / (pairs + points)] += 1,
            }
        }
        // In branches, only the leaves are points.
        let most = if name == "branches" { 5 } else { 12 };
        assert!(rates[..most].iter().all(|&count| count >= 10), "{name}: {rates:?}");
    }
}

/// The name of a function, and the kind of an accepted answer or the cause of a refusal.
type Reached = (&'static str, Result<&'static str, Cause>);

/// The model, counting what is reached, and for each function how many words were left over where it accepted.
#[derive(Default)]
struct Counting {
    reached: RefCell<BTreeMap<Reached, usize>>,
    left_over: RefCell<BTreeMap<(&'static str, usize), usize>>,
}

impl Counting {
    fn count<T>(
        &self,
        name: &'static str,
        answer: Result<T, Cause>,
        kind: impl Fn(&T) -> &'static str,
    ) -> Result<T, u32> {
        let reached = answer.as_ref().map(kind).map_err(|cause| *cause);
        *self.reached.borrow_mut().entry((name, reached)).or_default() += 1;
        Ok(answer?)
    }

    /// The same of a function that is lent so many words.
    fn count_on<T>(
        &self,
        name: &'static str,
        length: usize,
        answer: Result<T, Cause>,
        kind: impl Fn(&T) -> &'static str,
    ) -> Result<T, u32> {
        if answer.is_ok() {
            *self.left_over.borrow_mut().entry((name, (length - 18) % 4)).or_default() += 1;
        }
        self.count(name, answer, kind)
    }
}

/// The kinds of the used cells of a pool. They are those that are kept, where it has just been collected.
const KINDS: [&str; 4] = ["no cell", "pairs", "points", "pairs and points"];

fn kinds(words: &[u32]) -> &'static str {
    let states = || words[HEADER..].chunks_exact(CELL).map(|cell| cell[0]);
    let (pairs, points) = (states().any(|state| state == PAIR), states().any(|state| state == POINT));
    KINDS[usize::from(pairs) + 2 * usize::from(points)]
}

/// The kind of the cell that a register holds, before a call that may change it.
const HELD: [&str; 3] = ["nil", "a pair", "a point"];

fn held(words: &[u32], register: u32) -> &'static str {
    let link = words.get(2 + register.min(15) as usize).copied().unwrap_or(0) as usize;
    let at = HEADER + CELL * link.saturating_sub(1);
    match words.get(at) {
        Some(&POINT) if link > 0 => HELD[2],
        Some(_) if link > 0 => HELD[1],
        _ => HELD[0],
    }
}

/// What the stack marker meets at a point, in hand or in a check: whether its numbers are those of unmarked cells, which it would
/// mark if it took them for links.
const POINTS: [&str; 3] = ["x that of an unmarked cell", "y that of an unmarked cell", "neither"];

/// What may become of entries in checks, and what these may come to. The first three need several registers, or no word: the pools of
/// few cells do not meet them.
const CHECKS: [&str; 17] = [
    "a check over no entries",
    "checks from several registers",
    "the last register's check in vain",
    "an entry dropped at once",
    "an entry dropped after a walk",
    "an entry kept as it is",
    "an entry kept as the cell reached",
    "a walk over equal links",
    "an entry dropped for what the check marked before",
    "an entry that walks for what the check marked before",
    "a check in vain",
    "a check that drops one of several entries",
    "a check that drops some entries",
    "a check that drops every entry",
    "a gap beside two kept entries",
    "several checks, enough",
    "a check in vain after others",
];

/// What becomes of entries in the checks of the stack marker with so many words, and what the checks come to; and what the marker
/// meets at points.
fn checked(pool: &Pool, words: usize) -> (BTreeSet<&'static str>, BTreeSet<&'static str>) {
    let (mut met, mut at_points) = (BTreeSet::new(), BTreeSet::new());
    let mut registers = BTreeSet::new();
    let Limited { enough, checks, .. } = pool.mark_with_words(
        words,
        |cell, marked| {
            let Cell { state, left, right, .. } = *pool.cell(cell);
            if state == POINT {
                let unmarked = |number: u32| number <= pool.n() && !marked(number) && is_used(pool.cell(number).state);
                at_points.extend(unmarked(left).then_some(POINTS[0]));
                at_points.extend(unmarked(right).then_some(POINTS[1]));
                at_points.extend((!unmarked(left) && !unmarked(right)).then_some(POINTS[2]));
            }
        },
        |check| {
            registers.insert(check.register);
            for walk in &check.walks {
                met.insert(match (walk.cells, walk.kept) {
                    (0, None) => "an entry dropped at once",
                    (_, None) => "an entry dropped after a walk",
                    (0, Some(_)) => "an entry kept as it is",
                    (_, Some(_)) => "an entry kept as the cell reached",
                });
                if walk.over_equal {
                    met.insert("a walk over equal links");
                }
                // Two different links were unmarked when the check began, so what is marked now was marked in it.
                if walk.open == 2 && walk.kept.is_none() {
                    met.insert("an entry dropped for what the check marked before");
                } else if walk.open == 2 && walk.cells > 0 {
                    met.insert("an entry that walks for what the check marked before");
                }
            }
            let gone: Vec<bool> = check.walks.iter().map(|walk| walk.kept.is_none()).collect();
            met.insert(match gone.iter().filter(|&&gone| gone).count() {
                _ if gone.is_empty() => "a check over no entries",
                0 => "a check in vain",
                1 if gone.len() > 1 => "a check that drops one of several entries",
                count if count == gone.len() => "a check that drops every entry",
                _ => "a check that drops some entries",
            });
            // Those that are kept have to stay in order.
            if gone.contains(&true) && gone.iter().filter(|&&gone| !gone).count() > 1 {
                met.insert("a gap beside two kept entries");
            }
        },
    );
    match (checks, enough) {
        (0 | 1, _) => {}
        (2.., true) => _ = met.insert("several checks, enough"),
        (2.., false) => _ = met.insert("a check in vain after others"),
    }
    if registers.len() > 1 {
        met.insert(if enough { "checks from several registers" } else { "the last register's check in vain" });
    }
    (met, at_points)
}

/// The links that the stack marker meets without a limit, up to where it holds more entries than so many words, and whether they
/// make no check only since two equal unmarked links are one.
fn met(pool: &Pool, words: usize) -> BTreeSet<&'static str> {
    let mut met = BTreeSet::new();
    let mut too_few = false;
    // The register from which a cell came in hand.
    let mut from = vec![None; pool.cells.len() + 1];
    pool.mark_with_stack(|hand| {
        too_few |= hand.entries.len() > words;
        if too_few {
            return;
        }
        from[hand.cell as usize] = Some(hand.register);
        let (left, right) = pool.cell(hand.cell).links();
        met.insert(match hand.unmarked {
            (true, true) if left != right => "two unmarked links",
            (true, true) if hand.entries.len() < words => "equal unmarked links, words left",
            (true, true) if words > 0 => "equal unmarked links, no word left",
            (true, true) => "equal unmarked links, no word lent",
            (true, false) | (false, true) if left != 0 && right != 0 => "an unmarked link and a marked one",
            (false, false) if left == right && !hand.entries.is_empty() => match from[left as usize] {
                _ if left == 0 => "entries held, both links nil",
                _ if left == hand.cell => "entries held, equal links to the cell itself",
                None => "entries held, equal links to one of them",
                Some(register) if register < hand.register => {
                    "entries held, equal links to a cell of an earlier register"
                }
                Some(_) => "entries held, equal links to another marked cell",
            },
            _ => return,
        });
    });
    if !too_few && told_apart(pool).stack_needed() > words {
        met.insert("no check since equal links are one");
    }
    met
}

fn done<T>(_: &T) -> &'static str {
    "done"
}

impl Interface for Counting {
    fn fresh(&self, words: &mut [u32]) -> Result<(u32, u32), u32> {
        self.count_on("fresh", words.len(), Model.fresh(words), done)
    }
    fn copy(&self, words: &mut [u32], r: u32, a: u32) -> Result<(), u32> {
        let copied = held(words, a);
        self.count_on("copy", words.len(), Model.copy(words, r, a), |_| copied)
    }
    fn clear(&self, words: &mut [u32], r: u32) -> Result<(), u32> {
        self.count_on("clear", words.len(), Model.clear(words, r), done)
    }
    fn new_cell(&self, words: &mut [u32], r: u32, a: u32, b: u32, v: u32) -> Result<u32, u32> {
        let kind = |visits: &u32| if *visits > 0 { "collected" } else { "done" };
        self.count_on("new", words.len(), Model.new_cell(words, r, a, b, v), kind)
    }
    fn point(&self, words: &mut [u32], r: u32, v: u32, x: u32, y: u32) -> Result<u32, u32> {
        let kind = |visits: &u32| if *visits > 0 { "collected" } else { "done" };
        self.count_on("point", words.len(), Model.point(words, r, v, x, y), kind)
    }
    fn left(&self, words: &mut [u32], r: u32, a: u32) -> Result<(), u32> {
        let answer = Model.left(words, r, a);
        self.count_on("left", words.len(), answer, |_| held(words, r))
    }
    fn right(&self, words: &mut [u32], r: u32, a: u32) -> Result<(), u32> {
        let answer = Model.right(words, r, a);
        self.count_on("right", words.len(), answer, |_| held(words, r))
    }
    fn setleft(&self, words: &mut [u32], a: u32, b: u32) -> Result<(), u32> {
        let to = held(words, b);
        self.count_on("setleft", words.len(), Model.setleft(words, a, b), |_| to)
    }
    fn setright(&self, words: &mut [u32], a: u32, b: u32) -> Result<(), u32> {
        let to = held(words, b);
        self.count_on("setright", words.len(), Model.setright(words, a, b), |_| to)
    }
    fn setvalue(&self, words: &mut [u32], a: u32, v: u32) -> Result<(), u32> {
        let of = held(words, a);
        self.count_on("setvalue", words.len(), Model.setvalue(words, a, v), |_| of)
    }
    fn value(&self, words: &mut [u32], a: u32) -> Result<u32, u32> {
        let of = held(words, a);
        self.count_on("value", words.len(), Model.value(words, a), |_| of)
    }
    fn east(&self, words: &mut [u32], a: u32) -> Result<u32, u32> {
        self.count_on("east", words.len(), Model.east(words, a), done)
    }
    fn north(&self, words: &mut [u32], a: u32) -> Result<u32, u32> {
        self.count_on("north", words.len(), Model.north(words, a), done)
    }
    fn same(&self, words: &mut [u32], a: u32, b: u32) -> Result<u32, u32> {
        let held = words.get(2 + a as usize).copied();
        let kind = |same: &u32| match (same, held) {
            (0, _) => "different",
            (_, Some(0)) => "both nil",
            _ if a == b => "one register",
            _ => "one cell",
        };
        self.count_on("same", words.len(), Model.same(words, a, b), kind)
    }
    fn collect(&self, words: &mut [u32]) -> Result<(u32, u32), u32> {
        let answer = Model.collect(words);
        self.count_on("collect", words.len(), answer, |_| kinds(words))
    }
    fn collect_tally(&self, words: &mut [u32], tally: &mut Tally) -> Result<(u32, u32), u32> {
        let before = *tally;
        let answer = Model.collect_tally(words, tally);
        let stops = |visits: u32| tally.visits - before.visits < visits;
        let kind = |&(_, visits): &(u32, u32)| match (tally.collections == before.collections, stops(visits)) {
            (false, false) => "done",
            (true, false) => "collections stop",
            (false, true) => "visits stop",
            (true, true) => "both stop",
        };
        self.count_on("tally", words.len(), answer, kind)
    }
    fn collect_stack(&self, words: &mut [u32], stack: &mut [u32]) -> Result<(u32, u32, u32), u32> {
        if let Some(pool) = Pool::decode(words).ok().filter(Pool::well_formed) {
            for kind in met(&pool, stack.len()) {
                *self.reached.borrow_mut().entry(("stack marker", Ok(kind))).or_default() += 1;
            }
            let (checks, points) = checked(&pool, stack.len());
            for kind in checks {
                *self.reached.borrow_mut().entry(("stack check", Ok(kind))).or_default() += 1;
            }
            for kind in points {
                *self.reached.borrow_mut().entry(("stack marker at a point", Ok(kind))).or_default() += 1;
            }
        }
        let answer = Model.collect_stack(words, stack);
        let kind = |&(kept, enough, checks): &(u32, u32, u32)| match (enough, checks) {
            (0, _) => "too short",
            (_, 1..) => "enough with checks",
            _ if kept > 5 && !stack.is_empty() => "enough for many cells",
            _ => "done",
        };
        self.count_on("stack", words.len(), answer, kind)
    }
    fn worst_case(&self, words: &mut [u32]) -> Result<u32, u32> {
        let before = words.first().copied();
        let answer = Model.worst_case(words);
        let kind = |_: &u32| if before == words.first().copied() { "done" } else { "word 0 was another number" };
        self.count_on("worst case", words.len(), answer, kind)
    }
    fn collect_recursive(&self, words: &mut [u32]) -> Result<(u32, u32), u32> {
        let answer = Model.collect_recursive(words);
        self.count_on("recursive", words.len(), answer, |_| kinds(words))
    }
    fn save(&self, words: &mut [u32], scratch: &mut [u32], out: &mut [u8]) -> Result<usize, u32> {
        // The kinds of the cells in the image, which are those that are reached.
        let mut collected = words.to_vec();
        let _: Result<_, u32> = Model.collect(&mut collected);
        self.count_on("save", words.len(), Model.save(words, scratch, out), |_| kinds(&collected))
    }
    fn load(&self, words: &mut [u32], bytes: &[u8]) -> (Result<(), u32>, usize) {
        let (answer, rest) = Model.load(words, bytes);
        let kind = |_: &()| if rest < bytes.len() { "bytes behind" } else { kinds(words) };
        (self.count_on("load", words.len(), answer, kind), rest)
    }
    fn check_image(&self, bytes: &[u8], n: u32) -> Result<(), u32> {
        self.count("check", Model.check_image(bytes, n), done)
    }
    fn occupancy(&self, kept: u32, n: u32) -> Result<u32, u32> {
        let kind = |&percent: &u32| {
            let (exact, shown) = (100 * kept, percent * n);
            match (exact.cmp(&shown), 2 * exact.abs_diff(shown) == n) {
                (Equal, _) => "a whole percent",
                (Greater, false) => "down",
                (Less, false) => "up",
                (Greater, true) => "a half, to the even one below",
                (Less, true) => "a half, to the even one above",
            }
        };
        self.count("occupancy", Model.occupancy(kept, n), kind)
    }
}

/// The kinds of accepted answers of every function, and the causes of its refusals by the document's questions; also what the
/// stack marker meets.
fn answers() -> Vec<(&'static str, Vec<&'static str>, Vec<Cause>)> {
    use Cause::*;
    use Name::*;
    const LINKS: [Link; 2] = [Link::AboveN, Link::NotUsed];
    let length = || vec![Short, NoCells, ManyCells];
    let size = || [length(), vec![WordZero]].concat();
    let numbers = |names: &[Name]| -> Vec<Cause> { names.iter().map(|&name| Number(name)).collect() };
    let read =
        |names: &[Name]| -> Vec<Cause> { names.iter().flat_map(|&name| LINKS.map(|link| Read(name, link))).collect() };
    let not_well_formed = || {
        let links = LINKS.into_iter().flat_map(|link| [Register(link), Left(link), Right(link)]);
        links.chain([State, Several]).collect::<Vec<_>>()
    };
    let collect = || [size(), not_well_formed()].concat();
    let follow = || [size(), numbers(&[R, A]), read(&[A]), vec![Nil, OtherKind], LINKS.map(LinkRead).to_vec()].concat();
    let relink = || [size(), numbers(&[A, B]), read(&[A, B]), vec![Nil, OtherKind]].concat();
    let held = || [size(), numbers(&[A]), read(&[A]), vec![Nil]].concat();
    let coordinate = || [held(), vec![OtherKind]].concat();
    let allocate = || [not_well_formed(), vec![HeadAboveN, HeadNotFree, LeftOfHead, Full]].concat();
    let image = || {
        let places = [
            Place::K,
            Place::Register,
            Place::Kind,
            Place::Left,
            Place::Right,
            Place::PairValue,
            Place::X,
            Place::Y,
            Place::PointValue,
        ];
        let ends = places.into_iter().flat_map(|place| [Truncated(place), Wide(place), Long(place), Padded(place)]);
        let links = [Place::Register, Place::Left, Place::Right].map(AboveK);
        ends.chain([MoreThanN, KindNumber]).chain(links).collect::<Vec<_>>()
    };
    vec![
        ("fresh", vec!["done"], length()),
        ("copy", HELD.to_vec(), [size(), numbers(&[R, A]), read(&[A])].concat()),
        ("clear", vec!["done"], [size(), numbers(&[R])].concat()),
        ("new", vec!["done", "collected"], [size(), numbers(&[R, A, B]), read(&[A, B]), allocate()].concat()),
        ("point", vec!["done", "collected"], [size(), numbers(&[R]), allocate()].concat()),
        ("left", HELD.to_vec(), follow()),
        ("right", HELD.to_vec(), follow()),
        ("setleft", HELD.to_vec(), relink()),
        ("setright", HELD.to_vec(), relink()),
        ("setvalue", HELD[1..].to_vec(), held()),
        ("value", HELD[1..].to_vec(), held()),
        ("east", vec!["done"], coordinate()),
        ("north", vec!["done"], coordinate()),
        (
            "same",
            vec!["different", "both nil", "one register", "one cell"],
            [size(), numbers(&[A, B]), read(&[A, B])].concat(),
        ),
        ("collect", KINDS.to_vec(), collect()),
        ("tally", vec!["done", "collections stop", "visits stop", "both stop"], collect()),
        ("stack", vec!["done", "enough for many cells", "enough with checks", "too short"], collect()),
        (
            "stack marker",
            vec![
                "two unmarked links",
                "equal unmarked links, words left",
                "equal unmarked links, no word left",
                "equal unmarked links, no word lent",
                "an unmarked link and a marked one",
                "entries held, both links nil",
                "entries held, equal links to the cell itself",
                "entries held, equal links to one of them",
                "entries held, equal links to a cell of an earlier register",
                "entries held, equal links to another marked cell",
                "no check since equal links are one",
            ],
            vec![],
        ),
        ("stack check", CHECKS.to_vec(), vec![]),
        ("stack marker at a point", POINTS.to_vec(), vec![]),
        ("worst case", vec!["done", "word 0 was another number"], length()),
        ("recursive", KINDS.to_vec(), [collect(), vec![TooLarge]].concat()),
        ("save", KINDS.to_vec(), [collect(), vec![Scratch, Output]].concat()),
        ("load", [KINDS.as_slice(), &["bytes behind"]].concat(), [length(), image()].concat()),
        ("check", vec!["done"], [vec![NoCells, ManyCells], image()].concat()),
        (
            "occupancy",
            vec!["a whole percent", "down", "up", "a half, to the even one below", "a half, to the even one above"],
            vec![NoCells, ManyCells, Kept],
        ),
    ]
}

#[test]
fn the_random_inputs_reach_every_answer_and_every_cause_of_every_function() {
    let counting = Counting::default();
    for comparison in
        [checks::CALL_LISTS, checks::ANY_WORDS, checks::COLLECTIONS, checks::SAVES, checks::IMAGES, checks::PERCENTAGES]
    {
        // Half of the rounds are enough for that.
        Comparison { rounds: comparison.rounds / 2, ..comparison }.on(&counting).unwrap();
    }
    for function in answers().iter().map(|(name, ..)| *name) {
        let counts = [0, 1, 2, 3].map(|left| counting.left_over.borrow().get(&(function, left)).copied().unwrap_or(0));
        let takes_words =
            !["stack marker", "stack check", "stack marker at a point", "check", "occupancy"].contains(&function);
        assert!(counts.iter().all(|&count| (count >= 6) == takes_words), "{function}: {counts:?} by words left over");
    }
    let mut counts = counting.reached.into_inner();
    let mut seldom = BTreeMap::new();
    for (name, kinds, causes) in answers() {
        for reached in kinds.into_iter().map(Ok).chain(causes.into_iter().map(Err)) {
            let count = counts.remove(&(name, reached)).unwrap_or(0);
            if count < 6 {
                seldom.insert((name, reached), count);
            }
        }
    }
    assert_eq!(seldom, BTreeMap::new(), "answers that are reached too seldom, and how often");
    assert_eq!(counts, BTreeMap::new(), "answers that are not to come");
}

#[test]
fn the_pools_of_few_cells_reach_every_kind_of_check() {
    let counting = Counting::default();
    checks::CHECKED_POOLS.on(&counting).unwrap();
    let counts = counting.reached.into_inner();
    for kind in &CHECKS[3..] {
        let count = counts.get(&("stack check", Ok(kind))).copied().unwrap_or(0);
        assert!(count >= 5, "{kind}: {count}");
    }
    assert!(counts.iter().filter(|(reached, _)| reached.0 == "stack").map(|(_, count)| count).sum::<usize>() > 100_000);
}
