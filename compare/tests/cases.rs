//! Marking by reversal by the five cases of source document 000 and that of a point: what plain Rust and plain C tell of their
//! visits, against the model, which reverses no link, and against what was computed by hand.

mod common;

use cellpool_compare::baseline::PlainRust;
use cellpool_compare::checks::{self, Marker};
use cellpool_compare::generate;
use cellpool_compare::guard::Guarded;
use cellpool_compare::model::Pool;
use cellpool_compare::random::{rounds, seed, Random};
use cellpool_compare::refusal::{MALFORMED, SIZE};
use cellpool_compare::visit::{Case, Marking, CASES};
use cellpool_compare::{cell_at, is_used, Interface, HEADER, POINT};
use common::implementations;
use std::collections::BTreeMap;

fn markers() -> Vec<(&'static str, Box<Marker>)> {
    vec![
        ("plain Rust", Box::new(PlainRust::mark_by_cases)),
        #[cfg(c_baseline)]
        ("plain C", Box::new(cellpool_compare::pool::PlainC::mark_by_cases)),
    ]
}

fn random() -> Random {
    Random::new(seed().wrapping_mul(1_000).wrapping_add(200))
}

const ROUNDS: usize = 8_000;

#[test]
fn the_markers_tell_the_cases_of_the_model() {
    for (name, marker) in markers() {
        let pool = Guarded::new(implementations());
        let outcome = checks::cases(&pool, marker.as_ref(), &mut random(), rounds(ROUNDS));
        assert_eq!(outcome, Ok(()), "{name}, seed {}", seed());
        assert_eq!(pool.odd(), None, "this implementation does not as the one before it");
    }
}

/// The document's visit, by its two exchanges and without cases, and a point's, where p and q change places: how many words change
/// places at each visit, in order.
fn mark_by_exchanges(words: &mut [u32]) -> Vec<usize> {
    const ROOT: u32 = u32::MAX;
    let mut exchanges = Vec::new();
    for register in 2..HEADER {
        let (mut p, mut q) = (words[register], ROOT);
        if p == 0 || !is_used(words[cell_at(p)]) {
            continue;
        }
        while p != ROOT {
            let at = cell_at(p);
            words[at] += 1;
            let (m, l) = (words[at], words[at + 1]);
            if m == POINT + 1 {
                (p, q) = (q, p);
                exchanges.push(2);
                continue;
            }
            (words[at + 1], words[at + 2]) = (words[at + 2], q);
            if m == 3 || (l != 0 && is_used(words[cell_at(l)])) {
                (p, q) = (l, p);
                exchanges.push(4);
            } else {
                q = l;
                exchanges.push(3);
            }
        }
    }
    exchanges
}

#[test]
fn the_cases_are_the_exchanges() {
    let mut seen = [0; 5];
    for words in generate::well_formed_pools(&mut random(), rounds(2_000)) {
        let mut expected = words.clone();
        let exchanges = mark_by_exchanges(&mut expected);
        for (name, marker) in markers() {
            let mut found = words.clone();
            let cases = marker(&mut found).expect("the pool is well-formed").cases;
            let exchanged = |case: &Case| match case {
                Case::Retreat | Case::FollowLeft | Case::FollowRight => 4,
                Case::PassLeft | Case::PassRight => 3,
                Case::Point => 2,
            };
            assert!(cases.iter().map(exchanged).eq(exchanges.iter().copied()), "{name}: {words:?}");
            assert!(found == expected, "{name}: {words:?}");
        }
        exchanges.iter().for_each(|&count| seen[count] += 1);
    }
    assert!(seen[2..].iter().all(|&times| times > 2_000), "{seen:?}");
}

/// A pool by hand: the first registers (the others nil), left and right of each cell (all are used), and which of them are points;
/// the runs, each with the cell at which it begins and the numbers of its cases in order, 6 that of a point; how often each case
/// comes; the cells that cases 2 and 4 go to.
struct ByHand {
    registers: &'static [u32],
    links: &'static [[u32; 2]],
    points: &'static [u32],
    runs: &'static [(u32, &'static [u8])],
    times: [u32; 6],
    entered: &'static [u32],
}

const BY_HAND: [ByHand; 16] = [
    // All registers are nil: the cell is not reached.
    ByHand { registers: &[], links: &[[1, 1]], points: &[], runs: &[], times: [0, 0, 0, 0, 0, 0], entered: &[] },
    // A cell without links: left nil, right nil, back.
    ByHand {
        registers: &[1],
        links: &[[0, 0]],
        points: &[],
        runs: &[(1, &[3, 5, 1])],
        times: [1, 0, 1, 0, 1, 0],
        entered: &[],
    },
    // A cell whose links lead to itself, which is marked at its first visit.
    ByHand {
        registers: &[0, 1],
        links: &[[1, 1]],
        points: &[],
        runs: &[(1, &[3, 5, 1])],
        times: [1, 0, 1, 0, 1, 0],
        entered: &[],
    },
    // Two registers hold one cell: one run. Cell 1 is not reached.
    ByHand {
        registers: &[2, 0, 0, 2],
        links: &[[2, 2], [0, 2]],
        points: &[],
        runs: &[(2, &[3, 5, 1])],
        times: [1, 0, 1, 0, 1, 0],
        entered: &[],
    },
    // A balanced tree: to the left leaf, its three visits, to the right leaf, its three, and the end at the root.
    ByHand {
        registers: &[1],
        links: &[[2, 3], [0, 0], [0, 0]],
        points: &[],
        runs: &[(1, &[2, 3, 5, 1, 4, 3, 5, 1, 1])],
        times: [3, 1, 2, 1, 2, 0],
        entered: &[2, 3],
    },
    // Equal links: the cell is marked when the right one is looked at.
    ByHand {
        registers: &[1],
        links: &[[2, 2], [0, 0]],
        points: &[],
        runs: &[(1, &[2, 3, 5, 1, 5, 1])],
        times: [2, 1, 1, 0, 2, 0],
        entered: &[2],
    },
    // Two chains of two cells, the first one over left links, the other over right ones.
    ByHand {
        registers: &[1, 3],
        links: &[[2, 0], [0, 0], [0, 4], [0, 0]],
        points: &[],
        runs: &[(1, &[2, 3, 5, 1, 5, 1]), (3, &[3, 4, 3, 5, 1, 1])],
        times: [4, 1, 3, 1, 3, 0],
        entered: &[2, 4],
    },
    // Chains of three cells: over left links all go down first, over right ones too.
    ByHand {
        registers: &[0, 1, 6],
        links: &[[2, 0], [3, 0], [0, 0], [0, 0], [0, 4], [0, 5]],
        points: &[],
        runs: &[(1, &[2, 2, 3, 5, 1, 5, 1, 5, 1]), (6, &[3, 4, 3, 4, 3, 5, 1, 1, 1])],
        times: [6, 2, 4, 2, 4, 0],
        entered: &[2, 3, 5, 4],
    },
    // The second run meets cells of the first: cell 1 finds 2 marked and goes to 3, which finds 2 and 1 marked.
    ByHand {
        registers: &[2, 1],
        links: &[[2, 3], [0, 0], [2, 1]],
        points: &[],
        runs: &[(2, &[3, 5, 1]), (1, &[3, 4, 3, 5, 1, 1])],
        times: [3, 0, 3, 1, 2, 0],
        entered: &[3],
    },
    // Register 1 holds a cell that the run of register 0 goes to: no run begins there.
    ByHand {
        registers: &[1, 2],
        links: &[[0, 2], [0, 0]],
        points: &[],
        runs: &[(1, &[3, 4, 3, 5, 1, 1])],
        times: [2, 0, 2, 1, 1, 0],
        entered: &[2],
    },
    // A cycle: cell 1 goes left to 2; 2 finds 1 on the path and goes right to 3; 3 finds nil and 1 on the path.
    ByHand {
        registers: &[1],
        links: &[[2, 0], [1, 3], [0, 1]],
        points: &[],
        runs: &[(1, &[2, 3, 4, 3, 5, 1, 1, 5, 1])],
        times: [3, 1, 2, 1, 2, 0],
        entered: &[2, 3],
    },
    // A point whose numbers are those of itself: one visit, which ends the run.
    ByHand {
        registers: &[1],
        links: &[[1, 1]],
        points: &[1],
        runs: &[(1, &[6])],
        times: [0, 0, 0, 0, 0, 1],
        entered: &[],
    },
    // A pair with a point on each side, whose numbers are those of the other cells: to the left one and back, to the right one and
    // back, and the end.
    ByHand {
        registers: &[1],
        links: &[[2, 3], [3, 1], [1, 2]],
        points: &[2, 3],
        runs: &[(1, &[2, 6, 4, 6, 1])],
        times: [1, 1, 0, 1, 0, 2],
        entered: &[2, 3],
    },
    // Both links to one point: it is marked when the right one is looked at.
    ByHand {
        registers: &[1],
        links: &[[2, 2], [1, 1]],
        points: &[2],
        runs: &[(1, &[2, 6, 5, 1])],
        times: [1, 1, 0, 0, 1, 1],
        entered: &[2],
    },
    // The first run is that of a point. In the second one cell 1 finds it marked and goes to 3, which finds nil and the point.
    ByHand {
        registers: &[2, 1],
        links: &[[2, 3], [9, 9], [0, 2]],
        points: &[2],
        runs: &[(2, &[6]), (1, &[3, 4, 3, 5, 1, 1])],
        times: [2, 0, 2, 1, 1, 1],
        entered: &[3],
    },
    // A chain over right links with a point at its end, where the way back begins.
    ByHand {
        registers: &[1],
        links: &[[0, 2], [0, 3], [1, 2]],
        points: &[3],
        runs: &[(1, &[3, 4, 3, 4, 6, 1, 1])],
        times: [2, 0, 2, 2, 0, 1],
        entered: &[2, 3],
    },
];

#[test]
fn cases_by_hand() {
    for hand in BY_HAND {
        let mut words = vec![hand.links.len() as u32, 0];
        words.extend(hand.registers);
        words.resize(18, 0);
        let state = |i: u32| if hand.points.contains(&i) { 5 } else { 0 };
        words.extend(hand.links.iter().zip(1..).flat_map(|(&[left, right], i)| [state(i), left, right, 7]));
        let numbers: Vec<u8> = hand.runs.iter().flat_map(|(_, cases)| *cases).copied().collect();
        let told = Marking {
            times: hand.times,
            runs: hand.runs.len() as u32,
            cases: numbers.iter().map(|&number| CASES[usize::from(number) - 1]).collect(),
            entered: hand.entered.to_vec(),
        };
        let mut marked = words.clone();
        for &i in hand.runs.iter().map(|(begin, _)| begin).chain(hand.entered) {
            marked[cell_at(i)] = if hand.points.contains(&i) { 6 } else { 3 };
        }
        assert_eq!(Pool::decode(&words).expect("the size is right").marking(), told, "model: {words:?}");
        for (name, marker) in markers() {
            let mut found = words.clone();
            assert_eq!(marker(&mut found), Ok(told.clone()), "{name}: {words:?}");
            assert_eq!(found, marked, "{name}: {words:?}");
        }
    }
}

#[test]
fn other_words_are_refused_as_collect_refuses_them() {
    let mut random = random();
    let mut refusals = BTreeMap::new();
    for _ in 0..rounds(2_000) {
        let words = generate::words(&mut random);
        let Err(refusal) = PlainRust.collect(&mut words.clone()) else { continue };
        *refusals.entry(refusal).or_insert(0) += 1;
        for (name, marker) in markers() {
            let mut found = words.clone();
            assert_eq!(marker(&mut found), Err(refusal), "{name}");
            assert!(found == words, "{name}");
        }
    }
    assert!(refusals.keys().eq(&[SIZE, MALFORMED]) && refusals.values().all(|&times| times > 50), "{refusals:?}");
}

/// Why the link that a visit looked at is not followed. `run_of` is the register from whose run a cell was marked.
fn why_passed(link: u32, path: &[u32], register: usize, run_of: &[Option<usize>]) -> &'static str {
    match run_of[link as usize] {
        _ if link == 0 => "nil",
        _ if path.last() == Some(&link) => "the cell itself",
        _ if path.contains(&link) => "a cell before it on the path",
        Some(other) if other == register => "a cell that the run has left",
        Some(_) => "a cell of an earlier run",
        None => "a cell that was not visited",
    }
}

#[test]
fn the_random_pools_reach_every_case_and_several_runs() {
    let mut reached: BTreeMap<(String, &str), usize> = BTreeMap::new();
    for words in generate::well_formed_pools(&mut random(), ROUNDS) {
        let pool = Pool::decode(&words).expect("the size is right");
        let mut count = |what: &str, why: &'static str| *reached.entry((what.into(), why)).or_default() += 1;
        let mut run_of = vec![None; pool.cells.len() + 1];
        pool.mark_recursively(|visit| {
            let cell = *visit.path.last().expect("a visit has a cell");
            run_of[cell as usize] = Some(visit.register);
            let why = match (visit.case, visit.next) {
                (Case::PassLeft | Case::PassRight, Some(link)) => why_passed(link, visit.path, visit.register, &run_of),
                (Case::FollowLeft | Case::FollowRight, Some(link)) if pool.cell(link).state == POINT => "to a point",
                (Case::FollowLeft | Case::FollowRight, _) => "to a pair",
                (Case::Retreat, _) if visit.path.len() == 1 => "the end of a run",
                (Case::Point, _) if visit.path.len() == 1 => "a run of its own",
                _ => "",
            };
            count(&format!("{:?}", visit.case), why);
        });
        let marking = pool.marking();
        count("runs", ["none", "one", "two", "three or more"][marking.runs.min(3) as usize]);
        let links: Vec<u32> = pool.registers.into_iter().filter(|&link| link != 0).collect();
        let equal = (0..links.len()).any(|place| links[..place].contains(&links[place]));
        count("registers", if equal { "equal ones" } else { "no equal ones" });
        if links.iter().any(|link| marking.entered.contains(link)) {
            count("registers", "one whose cell an earlier run goes to");
        }
        count("cells", if pool.reached().len() < pool.cells.len() { "some not reached" } else { "all reached" });
    }
    let passes = [
        "nil",
        "the cell itself",
        "a cell before it on the path",
        "a cell that the run has left",
        "a cell of an earlier run",
    ];
    let expected = [
        ("Retreat", &["", "the end of a run"][..]),
        ("FollowLeft", &["to a pair", "to a point"]),
        ("PassLeft", &passes),
        ("FollowRight", &["to a pair", "to a point"]),
        ("PassRight", &passes),
        ("Point", &["", "a run of its own"]),
        ("runs", &["none", "one", "two", "three or more"]),
        ("registers", &["equal ones", "no equal ones", "one whose cell an earlier run goes to"]),
        ("cells", &["some not reached", "all reached"]),
    ];
    for (what, whys) in expected {
        for why in whys {
            let times = reached.remove(&(what.to_string(), *why)).unwrap_or(0);
            assert!(times >= 100, "{what}, {why}: only {times} times");
        }
    }
    assert_eq!(reached, BTreeMap::new(), "not to come");
}
