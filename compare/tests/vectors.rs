//! Answers and words computed by hand from the customer's document.

mod common;

use cellpool_compare::guard::Guarded;
use cellpool_compare::model::{Model, Pool};
use cellpool_compare::reads::{distinguish, Difference, Distinction};
use cellpool_compare::{apply, Answer, Call, Interface, Tally};
use common::implementations;

/// Run on every implementation and on the model.
fn on_all(check: impl Fn(&dyn Interface)) {
    check(&Model);
    for implementation in implementations() {
        check(&Guarded::new(vec![implementation]));
    }
}

/// Words of a pool: N, head, the first registers (the others nil), and the cells.
fn pool_words(head: u32, registers: &[u32], cells: &[[u32; 4]]) -> Vec<u32> {
    let mut words = vec![cells.len() as u32, head];
    words.extend(registers);
    words.resize(18, 0);
    words.extend(cells.iter().flatten());
    words
}

fn fresh(pool: &dyn Interface, n: usize) -> Vec<u32> {
    let mut words = vec![9; 18 + 4 * n];
    assert_eq!(pool.fresh(&mut words), Ok((n as u32, 0)));
    words
}

/// K, sixteen registers, and the bytes of the cells: kind, left, right and value of each.
fn image(k: u8, registers: &[u8], cells: &[u8]) -> Vec<u8> {
    let mut bytes = vec![k];
    bytes.extend(registers);
    bytes.resize(17, 0);
    bytes.extend(cells);
    bytes
}

const VALUES: [(u32, &[u8]); 9] = [
    (0, &[0x00]),
    (127, &[0x7F]),
    (128, &[0x80, 0x01]),
    (300, &[0xAC, 0x02]),
    (16_383, &[0xFF, 0x7F]),
    (16_384, &[0x80, 0x80, 0x01]),
    (2_097_152, &[0x80, 0x80, 0x80, 0x01]),
    (268_435_456, &[0x80, 0x80, 0x80, 0x80, 0x01]),
    (4_294_967_295, &[0xFF, 0xFF, 0xFF, 0xFF, 0x0F]),
];

#[test]
fn numbers_are_written_in_the_fewest_groups() {
    on_all(|pool| {
        for (value, written) in VALUES {
            // The value of a pair; and x, y and value of a point.
            let (pair, point) = ([&[0, 0, 0], written].concat(), [&[1], written, written, written].concat());
            for (cell, bytes) in [([0, 0, 0, value], pair), ([5, value, value, value], point)] {
                let mut words = pool_words(0, &[1], &[cell]);
                let mut out = [0x55; 40];
                let expected = image(1, &[1], &bytes);
                assert_eq!(pool.save(&mut words, &mut [7; 2], &mut out), Ok(expected.len()));
                assert_eq!(out[..expected.len()], expected);
                assert!(out[expected.len()..].iter().all(|&byte| byte == 0x55));
            }
        }
    });
}

#[test]
fn numbers_are_read_in_up_to_five_groups() {
    on_all(|pool| {
        for (value, written) in VALUES {
            let (pair, point) = ([&[0, 0, 1], written].concat(), [&[1], written, written, written].concat());
            for (cells, cell) in [(pair, [0, 0, 1, value]), (point, [5, value, value, value])] {
                let bytes = image(1, &[1, 0, 1], &cells);
                let mut words = vec![9; 22];
                assert_eq!(pool.load(&mut words, &bytes), (Ok(()), bytes.len()));
                assert_eq!(words, pool_words(0, &[1, 0, 1], &[cell]));
                assert_eq!(pool.check_image(&bytes, 1), Ok(()));
            }
        }
    });
}

#[test]
fn the_single_byte_00_is_the_number_0() {
    on_all(|pool| {
        // K and all registers.
        let mut words = vec![9; 26];
        assert_eq!(pool.check_image(&[0x00; 17], 2), Ok(()));
        assert_eq!(pool.load(&mut words, &[0x00; 17]), (Ok(()), 17));
        assert_eq!(words, pool_words(1, &[], &[[4, 2, 0, 0], [4, 0, 0, 0]]));
        // All registers, the kind, both links and the value; and of a point x, y and the value.
        for (kind, state) in [(0x00, 0), (0x01, 5)] {
            let bytes = image(1, &[0x00; 16], &[kind, 0x00, 0x00, 0x00]);
            let mut words = vec![9; 26];
            assert_eq!(pool.check_image(&bytes, 2), Ok(()));
            assert_eq!(pool.load(&mut words, &bytes), (Ok(()), 21));
            assert_eq!(words, pool_words(2, &[], &[[state, 0, 0, 0], [4, 0, 0, 0]]));
        }
    });
}

#[test]
fn numbers_that_are_refused() {
    on_all(|pool| {
        let cases: [(&[u8], u32); 19] = [
            (&[], 6),
            (&[0x80], 6),
            (&[0x85], 6),
            (&[0x80, 0x80, 0x80, 0x80], 6),
            (&[0xFF, 0xFF, 0xFF, 0xFF], 6),
            (&[0xFF, 0xFF, 0xFF, 0xFF, 0x10], 7),
            (&[0x80, 0x80, 0x80, 0x80, 0x10], 7),
            (&[0x80, 0x80, 0x80, 0x80, 0x80], 7),
            (&[0x80, 0x80, 0x80, 0x80, 0x80, 0x00], 7),
            (&[0xFF, 0xFF, 0xFF, 0xFF, 0x8F], 7),
            // Padded: 0, 1, 5, 127, 128 and 2^28 - 1 in one to four groups more than they need.
            (&[0x80, 0x00], 12),
            (&[0x80, 0x80, 0x00], 12),
            (&[0x80, 0x80, 0x80, 0x00], 12),
            (&[0x80, 0x80, 0x80, 0x80, 0x00], 12),
            (&[0x81, 0x00], 12),
            (&[0x85, 0x00], 12),
            (&[0xFF, 0x80, 0x00], 12),
            (&[0x80, 0x81, 0x00], 12),
            (&[0xFF, 0xFF, 0xFF, 0xFF, 0x00], 12),
        ];
        for (written, refusal) in cases {
            // As K, as a register, as a kind, as left, right and value of a pair, and as x, y and value of a point.
            let cells: [&[u8]; 7] = [&[], &[0], &[0, 0], &[0, 0, 0], &[1], &[1, 0xFF, 1], &[1, 0, 9]];
            let cells = cells.map(|front| image(1, &[], front));
            for front in [vec![], vec![0, 0, 0]].into_iter().chain(cells) {
                let bytes = [&front, written].concat();
                let mut words = vec![9; 22];
                assert_eq!(pool.load(&mut words, &bytes), (Err(refusal), bytes.len()), "{bytes:02X?}");
                assert_eq!(words, vec![9; 22]);
                assert_eq!(pool.check_image(&bytes, 1), Err(refusal));
            }
        }
    });
}

#[test]
fn an_image_with_a_padded_number_is_refused() {
    on_all(|pool| {
        // Three cells: 1 a pair with the links 2 and 3 and the value 5, 2 a pair with the links 1 and 2 and the value 0, 3 a point with
        // x 7, y 0 and the value 6.
        let good = image(3, &[1, 0, 2], &[0, 2, 3, 5, 0, 1, 2, 0, 1, 7, 0, 6]);
        let loaded = pool_words(0, &[1, 0, 2], &[[0, 2, 3, 5], [0, 1, 2, 0], [5, 7, 0, 6]]);
        let mut words = vec![9; 30];
        assert_eq!(pool.check_image(&good, 3), Ok(()));
        assert_eq!(pool.load(&mut words, &good), (Ok(()), 29));
        assert_eq!(words, loaded);
        // One of its numbers, all else as it was: its place, and the same number padded.
        let cases: [(usize, &[u8]); 17] = [
            // K.
            (0, &[0x83, 0x00]),
            // Registers: the first ones, and the last.
            (1, &[0x81, 0x00]),
            (2, &[0x80, 0x00]),
            (3, &[0x82, 0x80, 0x80, 0x80, 0x00]),
            (16, &[0x80, 0x80, 0x00]),
            // Kind, left, right and value of either pair.
            (17, &[0x80, 0x00]),
            (18, &[0x82, 0x00]),
            (19, &[0x83, 0x00]),
            (20, &[0x85, 0x00]),
            (21, &[0x80, 0x80, 0x80, 0x00]),
            (22, &[0x81, 0x80, 0x00]),
            (23, &[0x82, 0x80, 0x80, 0x00]),
            (24, &[0x80, 0x80, 0x80, 0x80, 0x00]),
            // Kind, x, y and value of the point.
            (25, &[0x81, 0x00]),
            (26, &[0x87, 0x00]),
            (27, &[0x80, 0x80, 0x00]),
            (28, &[0x86, 0x80, 0x80, 0x80, 0x00]),
        ];
        for (place, written) in cases {
            for behind in [&[][..], &[0x00], &[0xFF; 6]] {
                let bytes = [&good[..place], written, &good[place + 1..], behind].concat();
                let mut words = vec![9; 30];
                assert_eq!(pool.load(&mut words, &bytes), (Err(12), bytes.len()), "{bytes:02X?}");
                assert_eq!(words, vec![9; 30]);
                assert_eq!(pool.check_image(&bytes, 3), Err(12), "{bytes:02X?}");
            }
        }
    });
}

#[test]
fn the_first_fault_of_an_image_decides() {
    on_all(|pool| {
        let cases: [(Vec<u8>, u32, u32); 43] = [
            // K above N, even if nothing follows.
            (vec![2], 1, 9),
            (vec![0xFF, 0xFF, 0xFF, 0xFF, 0x0F], 4000, 9),
            (vec![2], 2, 6),
            // A register above K, before the end that is missing.
            (vec![1, 0, 2], 1, 8),
            (vec![1, 0, 0x80], 1, 6),
            (image(0, &[0; 16], &[])[..16].to_vec(), 1, 6),
            // Links above K; a value may be anything.
            (image(1, &[], &[0, 2, 0, 0]), 1, 8),
            (image(1, &[], &[0, 0, 2, 0]), 1, 8),
            (image(1, &[], &[0, 0, 2]), 1, 8),
            (image(1, &[], &[0, 0, 0]), 1, 6),
            (image(1, &[], &[0]), 1, 6),
            (image(1, &[], &[]), 1, 6),
            // A kind above 1, even if nothing follows; 2 to 127, 128, 2^32 - 1; before the link above K behind it.
            (image(1, &[], &[2]), 1, 14),
            (image(1, &[], &[2, 0, 0, 0]), 1, 14),
            (image(1, &[], &[4, 0, 0, 0]), 1, 14),
            (image(1, &[], &[5, 2, 2, 0]), 1, 14),
            (image(1, &[], &[0x7F, 0, 0, 0]), 1, 14),
            (image(1, &[], &[0x80, 0x01, 0, 0, 0]), 1, 14),
            (image(1, &[], &[0xFF, 0xFF, 0xFF, 0xFF, 0x0F]), 1, 14),
            (image(2, &[], &[1, 0x7F, 0x7F, 0, 2, 0, 0, 0]), 2, 14),
            // A padded kind is not asked whether it is known, and one that is too large or cut is neither.
            (image(1, &[], &[0x80, 0x00, 0, 0, 0]), 1, 12),
            (image(1, &[], &[0x82, 0x00, 0, 0, 0]), 1, 12),
            (image(1, &[], &[0x82, 0x80, 0x80, 0x80, 0x10]), 1, 7),
            (image(1, &[], &[0x82]), 1, 6),
            // The first cell's link above K before the second cell's kind.
            (image(2, &[], &[0, 3, 0, 0, 2]), 2, 8),
            // A point: x and y above K are not asked about, and the value may be missing.
            (image(1, &[], &[1, 2, 0x7F]), 1, 6),
            // A padded number is not asked whether it is too large: 5 as K for one cell, 2 with K 1 as a register and as a link.
            (vec![0x05], 1, 9),
            (vec![0x85, 0x00], 1, 12),
            (vec![0x85, 0x00], 5, 12),
            (vec![1, 0, 0x82, 0x00], 1, 12),
            (image(1, &[], &[0, 0x82, 0x00, 0, 0]), 1, 12),
            (image(1, &[], &[0, 0, 0x82, 0x00, 0]), 1, 12),
            // Whether it is below 2^32 is asked before; and it is not padded while bytes of it are missing.
            (vec![0x80, 0x80, 0x80, 0x80, 0x80], 1, 7),
            (vec![0x80, 0x80, 0x80, 0x80, 0x10], 1, 7),
            (vec![0x80, 0x80, 0x80, 0x80, 0x00], 1, 12),
            (vec![0x80], 1, 6),
            (vec![1, 0, 0x80, 0x80], 1, 6),
            // Of two numbers at fault the first one decides.
            (vec![2, 0x80, 0x00], 1, 9),
            (vec![1, 2, 0x80, 0x00], 1, 8),
            (vec![1, 0x80, 0x00, 2], 1, 12),
            (image(2, &[], &[0, 0, 0, 0x80, 0x80, 0x80, 0x80, 0x10, 0x80, 0x00]), 2, 7),
            // N out of its limits, whatever the bytes.
            (vec![], 0, 1),
            (vec![0x85, 0x00], 0, 1),
        ];
        for (bytes, n, refusal) in cases {
            assert_eq!(pool.check_image(&bytes, n), Err(refusal), "{bytes:02X?}");
            if n == 0 {
                continue;
            }
            let mut words = vec![3; 18 + 4 * n as usize];
            let before = words.clone();
            assert_eq!(pool.load(&mut words, &bytes), (Err(refusal), bytes.len()), "{bytes:02X?}");
            assert_eq!(words, before);
        }
        assert_eq!(pool.check_image(&image(0, &[], &[]), 4000), Ok(()));
        assert_eq!(pool.check_image(&image(0, &[], &[]), 4001), Err(1));
        // Refused for its length, load hands back the empty part at the end too.
        assert_eq!(pool.load(&mut [0; 21], &image(0, &[], &[])), (Err(1), 17));
        assert_eq!(pool.load(&mut [0; 21], &[0x85, 0x00]), (Err(1), 2));
        assert_eq!(pool.check_image(&[0x85, 0x00], 4001), Err(1));
    });
}

#[test]
fn save_numbers_cells_by_their_first_depth_first_visit() {
    on_all(|pool| {
        // Register 1 holds cell 2; cell 2 leads to 4 and 1, 4 to 1 and 4, 1 to 2 and nil; cells 3 and 5 are garbage.
        let cells = [[0, 2, 0, 300], [0, 4, 1, 128], [0, 1, 1, 9], [0, 1, 4, 127], [4, 99, 8, 7]];
        let words = pool_words(77, &[0, 2, 1], &cells);
        // The visits: 2, then its left 4, then the left of 4, which is 1.
        let expected = image(3, &[0, 1, 3], &[0, 2, 3, 0x80, 0x01, 0, 3, 2, 0x7F, 0, 1, 0, 0xAC, 0x02]);
        let (mut lent, mut scratch, mut out) = (words.clone(), vec![5; 12], [0x55; 40]);
        assert_eq!(pool.save(&mut lent, &mut scratch, &mut out), Ok(31));
        assert_eq!(expected.len(), 31);
        assert_eq!(out[..31], expected);
        assert_eq!(out[31..], [0x55; 9]);
        assert_eq!(scratch, [0; 12]);
        assert_eq!(lent, words);

        // Loaded: image cell i is cell i, and the rest is the ascending chain.
        let mut loaded = vec![1; 38];
        assert_eq!(pool.load(&mut loaded, &out), (Ok(()), 31));
        let cells = [[0, 2, 3, 128], [0, 3, 2, 127], [0, 1, 0, 300], [4, 5, 0, 0], [4, 0, 0, 0]];
        assert_eq!(loaded, pool_words(4, &[0, 1, 3], &cells));
    });
}

#[test]
fn save_refusals_and_its_scratch() {
    on_all(|pool| {
        let words = pool_words(0, &[1], &[[0, 0, 0, 5]]);
        let run = |words: &[u32], scratch: usize, out: usize| {
            let (mut lent, mut scratch, mut out) = (words.to_vec(), vec![6; scratch], vec![8; out]);
            let answer = pool.save(&mut lent, &mut scratch, &mut out);
            assert_eq!(lent, words);
            (answer, scratch, out)
        };
        assert_eq!(run(&words, 1, 21), (Err(10), vec![6; 1], vec![8; 21]));
        assert_eq!(run(&words, 2, 20), (Err(10), vec![0; 2], vec![8; 20]));
        assert_eq!(run(&words, 4, 0), (Err(10), vec![0; 4], vec![]));
        assert_eq!(run(&words, 4, 21), (Ok(21), vec![0; 4], image(1, &[1], &[0, 0, 0, 5])));
        // A point, whose x takes two bytes.
        let point = pool_words(0, &[1], &[[5, 128, 1, 5]]);
        assert_eq!(run(&point, 2, 21), (Err(10), vec![0; 2], vec![8; 21]));
        assert_eq!(run(&point, 2, 22), (Ok(22), vec![0; 2], image(1, &[1], &[1, 0x80, 0x01, 1, 5])));
        // The scratch is checked before the pool, and an malformed pool leaves it.
        let mut malformed = words.clone();
        malformed[19] = 2;
        assert_eq!(run(&malformed, 1, 20), (Err(10), vec![6; 1], vec![8; 20]));
        assert_eq!(run(&malformed, 2, 20), (Err(3), vec![6; 2], vec![8; 20]));
        assert_eq!(run(&words[..21], 0, 20), (Err(1), vec![], vec![8; 20]));
    });
}

#[test]
fn fresh_words() {
    on_all(|pool| {
        assert_eq!(fresh(pool, 1), pool_words(1, &[], &[[4, 0, 0, 0]]));
        assert_eq!(fresh(pool, 3), pool_words(1, &[], &[[4, 2, 0, 0], [4, 3, 0, 0], [4, 0, 0, 0]]));
        assert_eq!(pool.fresh(&mut [9; 18]), Err(1));
        assert_eq!(pool.fresh(&mut [9; 22]), Ok((1, 0)));
        assert_eq!(pool.fresh(&mut vec![9; 16_018]), Ok((4_000, 0)));
        assert_eq!(pool.fresh(&mut vec![9; 16_022]), Err(1));
        assert_eq!(pool.fresh(&mut []), Err(1));
    });
}

/// Lengths, with N and the words left over; none where the length is refused.
const LENGTHS: [(usize, Option<(u32, u32)>); 16] = [
    (0, None),
    (17, None),
    (18, None),
    (21, None),
    (22, Some((1, 0))),
    (23, Some((1, 1))),
    (24, Some((1, 2))),
    (25, Some((1, 3))),
    (26, Some((2, 0))),
    (29, Some((2, 3))),
    (16_017, Some((3_999, 3))),
    (16_018, Some((4_000, 0))),
    (16_019, Some((4_000, 1))),
    (16_021, Some((4_000, 3))),
    (16_022, None),
    (16_026, None),
];

#[test]
fn lengths_and_words_left_over() {
    on_all(|pool| {
        for (length, expected) in LENGTHS {
            // Words of 9, made a pool by fresh, by load of an image without cells, and by the builder of the worst case.
            let (mut fresh, mut loaded, mut built) = (vec![9; length], vec![9; length], vec![9; length]);
            assert_eq!(pool.fresh(&mut fresh), expected.ok_or(1), "{length} words");
            assert_eq!(pool.load(&mut loaded, &[0; 17]), (expected.map(|_| ()).ok_or(1), 17), "{length} words");
            assert_eq!(pool.worst_case(&mut built), expected.map(|(n, _)| (n - 1) / 2).ok_or(1), "{length} words");
            let Some((n, left_over)) = expected else {
                assert_eq!([fresh, loaded, built], [(); 3].map(|()| vec![9; length]));
                continue;
            };
            // All cells free, the lowest first; the words left over stay.
            let mut words = vec![n, 1];
            words.resize(18, 0);
            words.extend((1..=n).flat_map(|i| [4, if i < n { i + 1 } else { 0 }, 0, 0]));
            words.resize(length, 9);
            assert_eq!(fresh, words);
            assert_eq!(loaded, words);
            assert_eq!((built[0], built[2]), (n, 1));
            assert_eq!(built[length - left_over as usize..], vec![9; left_over as usize]);
            // Every other call asks for word 0 as well: N, and neither of its neighbours.
            for (first, answer) in [(n, Ok(())), (n - 1, Err(1)), (n + 1, Err(1)), (9, Err(1))] {
                words[0] = first;
                assert_eq!(pool.clear(&mut words, 15), answer, "{length} words, word 0 is {first}");
                assert_eq!(pool.copy(&mut words, 15, 0), answer);
                assert_eq!(pool.collect(&mut words), answer.map(|()| (0, 0)));
                assert_eq!(pool.collect_stack(&mut words, &mut []), answer.map(|()| (0, 1, 0)));
                assert_eq!(pool.save(&mut words, &mut vec![7; 2 * n as usize], &mut [7; 17]), answer.map(|()| 17));
                assert_eq!(words[1..], fresh[1..]);
            }
        }
    });
}

#[test]
fn words_left_over_are_no_cell() {
    on_all(|pool| {
        // Two cells, and three words that look like a pair as cell 3, like a free cell, or like a point.
        let cells = [[0, 0, 0, 7], [0, 1, 1, 8]];
        for behind in [[0, 1, 1], [4, 0, 0], [5, 9, 9], [9, 9, 9]] {
            let with = |mut words: Vec<u32>| {
                words.extend(behind);
                words
            };
            let words = with(pool_words(0, &[2], &cells));
            // A register, a link and the head do not lead to cell 3.
            let mut lent = words.clone();
            lent[3] = 3;
            let before = lent.clone();
            assert_eq!(pool.copy(&mut lent, 4, 1), Err(3));
            assert_eq!(pool.value(&mut lent, 1), Err(3));
            assert_eq!(pool.collect(&mut lent), Err(3));
            assert_eq!(lent, before);
            let mut lent = words.clone();
            lent[23] = 3;
            assert_eq!(pool.left(&mut lent, 1, 0), Err(3));
            assert_eq!(pool.collect_stack(&mut lent, &mut [7]), Err(3));
            assert_eq!(pool.collect_recursive(&mut lent), Err(3));
            assert_eq!(pool.save(&mut lent, &mut [7; 4], &mut [7; 40]), Err(3));
            lent[1] = 3;
            assert_eq!(pool.new_cell(&mut lent, 1, 0, 0, 5), Err(3));
            // Both cells are reached, and there is no third: full.
            let mut lent = words.clone();
            assert_eq!(pool.new_cell(&mut lent, 1, 0, 0, 5), Err(5));
            assert_eq!(lent, words);
            assert_eq!(pool.collect(&mut lent), Ok((2, 6)));
            assert_eq!(pool.collect_stack(&mut lent, &mut [7]), Ok((2, 1, 0)));
            assert_eq!(pool.collect_recursive(&mut lent), Ok((2, 6)));
            let mut tally = Tally { collections: 1, visits: 2 };
            assert_eq!(pool.collect_tally(&mut lent, &mut tally), Ok((2, 6)));
            assert_eq!(lent, words);
            // Cell 2 is garbage: it comes back, and the chain ends there.
            let mut lent = words.clone();
            assert_eq!(pool.left(&mut lent, 0, 0), Ok(()));
            assert_eq!(pool.collect(&mut lent), Ok((1, 3)));
            assert_eq!(lent, with(pool_words(2, &[1], &[[0, 0, 0, 7], [4, 0, 0, 0]])));
            assert_eq!(pool.new_cell(&mut lent, 1, 0, 0, 5), Ok(0));
            assert_eq!(lent, with(pool_words(0, &[1, 2], &[[0, 0, 0, 7], [0, 1, 1, 5]])));
            // Saved with a scratch of four words, as without words left over; loaded, they stay.
            let (mut lent, mut out) = (words.clone(), [0x55; 26]);
            assert_eq!(pool.save(&mut lent, &mut [7; 4], &mut out), Ok(25));
            assert_eq!(out[..25], image(2, &[1], &[0, 2, 2, 8, 0, 0, 0, 7]));
            assert_eq!((out[25], &lent), (0x55, &words));
            assert_eq!(pool.load(&mut lent, &out), (Ok(()), 25));
            assert_eq!(lent, with(pool_words(0, &[1], &[[0, 2, 2, 8], [0, 0, 0, 7]])));
            // An image of three cells does not fit, though words are left over.
            let before = lent.clone();
            assert_eq!(pool.load(&mut lent, &image(3, &[], &[0; 12])), (Err(9), 29));
            assert_eq!(lent, before);
        }
        // 64 cells with three words left over are not too many for the recursive marker.
        let mut words = vec![9; 18 + 4 * 64 + 3];
        assert_eq!(pool.fresh(&mut words), Ok((64, 3)));
        assert_eq!(pool.collect_recursive(&mut words), Ok((0, 0)));
        assert_eq!(words[18 + 4 * 64..], [9; 3]);
    });
}

#[test]
fn the_script_of_the_document() {
    on_all(|pool| {
        let mut words = fresh(pool, 2);
        assert_eq!(pool.new_cell(&mut words, 0, 0, 0, 7), Ok(0));
        assert_eq!(words, pool_words(2, &[1], &[[0, 0, 0, 7], [4, 0, 0, 0]]));
        assert_eq!(pool.new_cell(&mut words, 1, 0, 0, 8), Ok(0));
        let full = pool_words(0, &[1, 2], &[[0, 0, 0, 7], [0, 1, 1, 8]]);
        assert_eq!(words, full);
        assert_eq!(pool.new_cell(&mut words, 2, 1, 1, 9), Err(5));
        assert_eq!(words, full);
        assert_eq!(pool.clear(&mut words, 0), Ok(()));
        assert_eq!(pool.clear(&mut words, 1), Ok(()));
        assert_eq!(words, pool_words(0, &[], &[[0, 0, 0, 7], [0, 1, 1, 8]]));
        assert_eq!(pool.new_cell(&mut words, 2, 1, 1, 9), Ok(0));
        assert_eq!(words, pool_words(2, &[0, 0, 1], &[[0, 0, 0, 9], [4, 0, 0, 0]]));
        assert_eq!(pool.value(&mut words, 2), Ok(9));
        assert_eq!(pool.collect(&mut words), Ok((1, 3)));
        assert_eq!(words, pool_words(2, &[0, 0, 1], &[[0, 0, 0, 9], [4, 0, 0, 0]]));
    });
}

#[test]
fn a_cell_linked_to_itself_and_nil_registers() {
    on_all(|pool| {
        let words = pool_words(0, &[1], &[[0, 1, 1, 5]]);
        let mut lent = words.clone();
        assert_eq!(pool.collect(&mut lent), Ok((1, 3)));
        assert_eq!(lent, words);
        assert_eq!(pool.collect_recursive(&mut lent), Ok((1, 3)));
        assert_eq!(pool.collect_stack(&mut lent, &mut []), Ok((1, 1, 0)));
        assert_eq!(lent, words);
        let mut garbage = pool_words(0, &[], &[[0, 1, 1, 5]]);
        assert_eq!(pool.collect(&mut garbage), Ok((0, 0)));
        assert_eq!(garbage, pool_words(1, &[], &[[4, 0, 0, 0]]));
    });
}

/// A length of the stack, whether it is enough, and the checks.
type Stacked = (usize, u32, u32);

/// Stack collections that change no word of the pool and keep so many cells.
fn stack_collections(pool: &dyn Interface, words: &[u32], kept: u32, expected: &[Stacked]) {
    for &(length, enough, checks) in expected {
        let (mut lent, mut stack) = (words.to_vec(), vec![7; length]);
        let answer = pool.collect_stack(&mut lent, &mut stack);
        assert_eq!(answer, Ok((kept, enough, checks)), "{kept} cells, {length} words");
        assert_eq!(lent, words);
        assert_eq!(stack, vec![0; length]);
    }
}

/// Used cells with these links, and their own numbers as values. All are reached.
fn linked(registers: &[u32], links: &[(u32, u32)]) -> Vec<u32> {
    let cells: Vec<[u32; 4]> = links.iter().zip(1..).map(|(&(left, right), i)| [0, left, right, i]).collect();
    pool_words(0, registers, &cells)
}

const LEAF: (u32, u32) = (0, 0);

#[test]
fn both_links_to_one_leaf_need_no_stack_word() {
    on_all(|pool| {
        let words = pool_words(0, &[0, 2], &[[0, 0, 0, 5], [0, 1, 1, 6]]);
        stack_collections(pool, &words, 2, &[(0, 1, 0), (1, 1, 0), (2, 1, 0)]);
    });
}

#[test]
fn links_to_two_leaves_need_one_stack_word() {
    on_all(|pool| {
        let words = pool_words(0, &[0, 3], &[[0, 0, 0, 4], [0, 0, 0, 5], [0, 1, 2, 6]]);
        // With no word the check has no entry to drop.
        stack_collections(pool, &words, 3, &[(0, 0, 1), (1, 1, 0), (2, 1, 0)]);
        // One of the leaves is marked by an earlier register: then none.
        let words = pool_words(0, &[2, 3], &[[0, 0, 0, 4], [0, 0, 0, 5], [0, 1, 2, 6]]);
        stack_collections(pool, &words, 3, &[(0, 1, 0), (1, 1, 0)]);
    });
}

#[test]
fn a_chain_with_equal_links_needs_no_stack_word() {
    on_all(|pool| {
        for n in [1, 2, 3, 64, 500, 4_000] {
            let cells: Vec<[u32; 4]> = (1..=n).map(|i| [0, (i + 1) % (n + 1), (i + 1) % (n + 1), i]).collect();
            let words = pool_words(0, &[1], &cells);
            stack_collections(pool, &words, n, &[(0, 1, 0), (1, 1, 0), (n as usize, 1, 0)]);
        }
    });
}

#[test]
fn equal_links_are_followed_where_every_stack_word_is_taken() {
    on_all(|pool| {
        // Cell 1 leads to 2 and 3: 3 is pushed. Then both links of 2 lead to 4, both of 4 to 5, and of 5 to nil; 3 is popped, which
        // leads to 4 and 6: 4 is marked.
        let cells = [[0, 2, 3, 1], [0, 4, 4, 2], [0, 4, 6, 3], [0, 5, 5, 4], [0, 0, 0, 5], [0, 6, 6, 6]];
        stack_collections(pool, &pool_words(0, &[1], &cells), 6, &[(0, 0, 1), (1, 1, 0), (2, 1, 0)]);
    });
}

#[test]
fn equal_links_to_a_marked_cell_are_not_followed_again() {
    on_all(|pool| {
        // Register 0 holds cell 6. Cell 1, in register 1, leads to 2 and 3: 3 is pushed. Both links of 2 lead to a marked cell: the
        // one before it, itself, the one that is pushed, or that of the other register. So 3 is popped, which leads to 4, and 4 to
        // 5 and 3: 5 is reached, and one word is enough.
        for link in [1, 2, 3, 6] {
            let cells = [[0, 2, 3, 1], [0, link, link, 2], [0, 4, 4, 3], [0, 5, 3, 4], [0, 5, 5, 5], [0, 0, 0, 6]];
            stack_collections(pool, &pool_words(0, &[6, 1], &cells), 6, &[(0, 0, 1), (1, 1, 0), (2, 1, 0)]);
        }
        // The pushed cell leads to two others: 3 is popped before 5 is pushed, and one word is enough.
        let cells = [[0, 2, 3, 1], [0, 3, 3, 2], [0, 4, 5, 3], [0, 0, 0, 4], [0, 0, 0, 5]];
        stack_collections(pool, &pool_words(0, &[1], &cells), 5, &[(0, 0, 1), (1, 1, 0), (2, 1, 0)]);
    });
}

#[test]
fn the_worst_case_for_the_stack() {
    on_all(|pool| {
        // The left of an odd cell is the next odd one, its right the even one between, each nil above N; an even cell is a leaf.
        const END: [u32; 4] = [0, 0, 0, 0];
        let cases: [(&[[u32; 4]], u32); 5] = [
            (&[END], 0),
            (&[[0, 0, 2, 0], END], 0),
            (&[[0, 3, 2, 0], END, END], 1),
            (&[[0, 3, 2, 0], END, [0, 0, 4, 0], END], 1),
            (&[[0, 3, 2, 0], END, [0, 5, 4, 0], END, END], 2),
        ];
        for (cells, entries) in cases {
            let mut words = vec![9; 18 + 4 * cells.len()];
            assert_eq!(pool.worst_case(&mut words), Ok(entries));
            assert_eq!(words, pool_words(0, &[1], cells));
            // As many words as entries, and more: no check.
            let lengths = [entries as usize, entries as usize + 1, 7].map(|length| (length, 1, 0));
            stack_collections(pool, &words, cells.len() as u32, &lengths);
            // The same on the words of a fresh pool, word 0 as it is and another number.
            for first in [cells.len() as u32, 0, 4_000] {
                let mut words = fresh(pool, cells.len());
                words[0] = first;
                assert_eq!(pool.worst_case(&mut words), Ok(entries));
                assert_eq!(words, pool_words(0, &[1], cells));
            }
        }
        assert_eq!(pool.worst_case(&mut [9; 22]), Ok(0));
        let mut largest = vec![9; 16_018];
        assert_eq!(pool.worst_case(&mut largest), Ok(1_999));
        // N, the head, the registers and cells 1 and 2; then cells 3,997 to 4,000.
        assert_eq!(largest[..3], [4_000, 0, 1]);
        assert_eq!(largest[3..18], [0; 15]);
        assert_eq!(largest[18..26], [[0, 3, 2, 0], END].concat());
        assert_eq!(largest[16_002..], [[0, 3_999, 3_998, 0], END, [0, 0, 4_000, 0], END].concat());
        // 1,998 leaves fill the stack, and a check drops them all; ten words are full after 10, 20, ... 1,990 pushes, with one
        // more to come each time.
        stack_collections(
            pool,
            &largest,
            4_000,
            &[(0, 0, 1), (1, 1, 1_998), (10, 1, 199), (1_998, 1, 1), (1_999, 1, 0)],
        );
        for length in [0, 1, 17, 18, 19, 21, 16_022, 16_023] {
            let mut refused = vec![9; length];
            assert_eq!(pool.worst_case(&mut refused), Err(1), "{length} words");
            assert_eq!(refused, vec![9; length]);
        }
    });
}

#[test]
fn the_checks_of_the_worst_case() {
    on_all(|pool| {
        // The entries are leaves, so that a check drops all of them, and the push comes first on an empty stack. With N = 11, cells 2,
        // 4, 6, 8 and 10 are pushed. One word: 2 is held; then each of the four others finds it full. Two words: 2 and 4; a check for 6,
        // which is held with 8; a check for 10. Three words: 2, 4 and 6; a check for 8. Four: a check for 10. Five: none.
        let cases: [(usize, &[Stacked]); 7] = [
            (2, &[(0, 1, 0), (1, 1, 0)]),
            // One push: with no word there is no entry to drop.
            (3, &[(0, 0, 1), (1, 1, 0)]),
            (4, &[(0, 0, 1), (1, 1, 0)]),
            // Two pushes.
            (5, &[(0, 0, 1), (1, 1, 1), (2, 1, 0)]),
            (6, &[(0, 0, 1), (1, 1, 1), (2, 1, 0)]),
            // Three.
            (7, &[(0, 0, 1), (1, 1, 2), (2, 1, 1), (3, 1, 0)]),
            // Five.
            (11, &[(0, 0, 1), (1, 1, 4), (2, 1, 2), (3, 1, 1), (4, 1, 1), (5, 1, 0)]),
        ];
        for (n, expected) in cases {
            let mut words = vec![9; 18 + 4 * n];
            assert_eq!(pool.worst_case(&mut words), Ok((n as u32 - 1) / 2));
            stack_collections(pool, &words, n as u32, expected);
        }
    });
}

#[test]
fn an_entry_is_dropped_after_a_walk() {
    on_all(|pool| {
        // One word: cell 1 leads to 2 and 3, and 3 is held; 2 leads to 4 and 5, which are marked, and the stack is full. From 3 only 6 is
        // unmarked, from 6 only 7, and both links of 7 lead to 1: the entry is dropped, and 5 is pushed.
        let links = [(2, 3), (4, 5), (6, 0), LEAF, LEAF, (0, 7), (1, 1)];
        stack_collections(pool, &linked(&[1], &links), 7, &[(0, 0, 1), (1, 1, 1), (2, 1, 0)]);
    });
}

#[test]
fn marks_of_a_check_in_vain_are_cleared_before_reversal() {
    on_all(|pool| {
        // One word: 3 is held, and 2 leads to 4 and 5. Both links of 3 lead to 6, which is marked, and 6 to 7 and 8, two different cells
        // that are unmarked: the entry becomes 6, and none went. With the mark of 6 left, reversal would not reach 7 and 8. Two words:
        // 3 and 5 are held, then 8 alone.
        let links = [(2, 3), (4, 5), (6, 6), LEAF, LEAF, (7, 8), LEAF, LEAF];
        stack_collections(pool, &linked(&[1], &links), 8, &[(0, 0, 1), (1, 0, 1), (2, 1, 0)]);
        // The same with cell 9 as garbage and cell 10 free: the links of 3 and 6 are as they were.
        let mut words = linked(&[1], &[links.as_slice(), &[(1, 6), LEAF]].concat());
        words[18 + 4 * 9..].copy_from_slice(&[4, 0, 0, 0]);
        let mut after = words.clone();
        after[1] = 9;
        after[18 + 4 * 8..18 + 4 * 9].copy_from_slice(&[4, 10, 0, 0]);
        for (length, enough, checks) in [(0, 0, 1), (1, 0, 1), (2, 1, 0)] {
            let (mut lent, mut stack) = (words.clone(), vec![3; length]);
            assert_eq!(pool.collect_stack(&mut lent, &mut stack), Ok((8, enough, checks)));
            assert_eq!(lent, after);
            assert_eq!(stack, vec![0; length]);
        }
        // A refused one leaves the stack.
        words[5] = 10;
        let mut stack = [3; 2];
        assert_eq!(pool.collect_stack(&mut words, &mut stack), Err(3));
        assert_eq!(stack, [3; 2]);
    });
}

#[test]
fn an_entry_becomes_the_cell_reached_and_is_gone_on_from_later() {
    on_all(|pool| {
        // Two words: 3 and 5 are held, and 4 leads to 6 and 7. 5 is a leaf and is dropped; from 3 only 8 is unmarked, which leads to 9 and
        // 10: the entry becomes 8, and 7 is pushed above it. 6 and 7 are leaves; 8 is popped, and 10 pushed. One word: 3 is held where
        // 2 leads to 4 and 5; it becomes 8, and none went.
        let links = [(2, 3), (4, 5), (8, 0), (6, 7), LEAF, LEAF, LEAF, (9, 10), LEAF, LEAF];
        stack_collections(pool, &linked(&[1], &links), 10, &[(0, 0, 1), (1, 0, 1), (2, 1, 1), (3, 1, 0)]);
    });
}

#[test]
fn what_an_entry_marks_counts_for_those_below_it() {
    on_all(|pool| {
        // Two words: 3 and 5 are held, and 4 leads to 6 and 7. From 5 only 10 is unmarked, and from there 11: it is dropped. 3 leads to
        // 10 and 11, now both marked: it is dropped too. 7 is pushed, and then 9: one check. (From bottom to top 3 would be kept, and
        // 9 would find the stack full again.) Three words: 3, 5 and 7 are held, and 9 finds them full: all are dropped. One word: 3
        // leads to 10 and 11, both unmarked, and none went.
        let links = [(2, 3), (4, 5), (10, 11), (6, 7), (10, 0), (8, 9), LEAF, LEAF, LEAF, (11, 0), LEAF];
        let expected = [(0, 0, 1), (1, 0, 1), (2, 1, 1), (3, 1, 1), (4, 1, 0)];
        stack_collections(pool, &linked(&[1], &links), 11, &expected);
    });
}

#[test]
fn a_check_in_vain_after_a_good_one() {
    on_all(|pool| {
        // Two words: 3 and 5 are held, and 4 leads to 6 and 7. 5 is a leaf and is dropped; 3 leads to 10 and 11, and is kept. 7 is pushed;
        // 6 leads to 8 and 9. 7 leads to 12 and 13, 3 still to 10 and 11: both are kept, and none went. Three words: 3, 5 and 7 are
        // held, and 9 finds them full: 5 is dropped. Four: no check.
        let links = [(2, 3), (4, 5), (10, 11), (6, 7), LEAF, (8, 9), (12, 13), LEAF, LEAF, LEAF, LEAF, LEAF, LEAF];
        let expected = [(0, 0, 1), (1, 0, 1), (2, 0, 2), (3, 1, 1), (4, 1, 0)];
        stack_collections(pool, &linked(&[1], &links), 13, &expected);
    });
}

#[test]
fn an_entry_moves_on_from_check_to_check() {
    on_all(|pool| {
        // Two words: 3 and 5 are held, and 4 leads to 6 and 7. First check: 5 is dropped, 3 leads to 10 and 11 and is kept; 7 is pushed. 6
        // leads to 10 and 8. Second check: 7 is dropped; 10 is marked now, so that 3 goes to 11, which leads to 12 and 13: the entry
        // becomes 11; 8 is pushed. 10 leads to 12 and 9. Third check: 8 is dropped; from 11 only 13 is unmarked, a leaf: dropped. 9 is
        // pushed, 12 is a leaf. Three words: 3, 5 and 7 are held, and the check for 8 drops 5 and 7 and takes 3 to 11; 8 and 9 are
        // pushed. Four words: 3, 5, 7 and 8, and the check for 9 drops all. Five: no check. One: 3 is kept, and none went.
        let links = [(2, 3), (4, 5), (10, 11), (6, 7), LEAF, (10, 8), LEAF, LEAF, LEAF, (12, 9), (12, 13), LEAF, LEAF];
        let expected = [(0, 0, 1), (1, 0, 1), (2, 1, 3), (3, 1, 1), (4, 1, 1), (5, 1, 0)];
        stack_collections(pool, &linked(&[1], &links), 13, &expected);
    });
}

#[test]
fn the_gaps_are_closed_in_order() {
    on_all(|pool| {
        // Three words: 3, 5 and 7 are held, and 6 leads to 8 and 9. First check: 7 leads to 12 and 13 and is kept, 5 is dropped, 3 leads to
        // 12 and 10 and is kept: 3, 7, and 9 is pushed. 8 leads to 10 and 11. Second check: 9 is dropped, 7 is kept; from 3, with 10
        // marked, only 12 is unmarked, a leaf: dropped. 7, 11 and 15 are held, and 14 leads to 16 and 17. Third check: 15 and 11 are
        // dropped, from 7 only 13 is left: dropped. (In the other order, 7 below 3, the second check would drop both, and there would be
        // no third.)
        let links = [
            (2, 3),
            (4, 5),
            (12, 10),
            (6, 7),
            LEAF,
            (8, 9),
            (12, 13),
            (10, 11),
            LEAF,
            (14, 15),
            LEAF,
            LEAF,
            LEAF,
            (16, 17),
            LEAF,
            LEAF,
            LEAF,
        ];
        // One word: 3 is kept. Two: 5 is dropped, then 7 and 3 are kept. Four: 3, 5, 7 and 9 are held, and the check for 11 keeps 7 alone.
        // Five, and six: the same for 15, and for 17. Seven: no check.
        let expected = [(0, 0, 1), (1, 0, 1), (2, 0, 2), (3, 1, 3), (4, 1, 1), (5, 1, 1), (6, 1, 1), (7, 1, 0)];
        stack_collections(pool, &linked(&[1], &links), 17, &expected);
    });
}

#[test]
fn more_words_may_make_more_checks() {
    on_all(|pool| {
        let links = [(6, 3), (0, 4), (4, 9), (7, 5), (6, 10), (9, 7), (8, 4), (6, 2), (11, 5), (1, 7), (2, 10)];
        // One word: 3 is held, and 6 leads to 9 and 7. From 3 only 4 is unmarked, then 5, then 10, which leads to 1 and 7: dropped. 7 is
        // pushed. From 9 on 11, 2 and nothing more; 7 is popped, and goes to 8. One check.
        // Two words: 3 and 7 are held, and 9 leads to 11 and 5. 7 leads to 8 and 4 and is kept; 3 goes to 4, which leads to 7 and 5:
        // dropped. 5 is pushed. 11 leads to 2 and 10. 5 leads to 6 and 10: dropped; 7 goes to 8: dropped. 10 is pushed. Two checks.
        // Three words: 3, 7 and 5 are held, and 11 leads to 2 and 10: 5 and 3 are dropped, 7 is kept. One check. Four: none.
        let expected = [(0, 0, 1), (1, 1, 1), (2, 1, 2), (3, 1, 1), (4, 1, 0)];
        stack_collections(pool, &linked(&[1], &links), 11, &expected);
    });
}

#[test]
fn two_words_may_be_enough_where_three_are_not() {
    on_all(|pool| {
        let links = [
            (2, 15),
            (3, 14),
            (4, 13),
            (5, 12),
            (6, 9),
            (7, 8),
            LEAF,
            LEAF,
            (10, 11),
            LEAF,
            LEAF,
            (10, 11),
            (10, 11),
            LEAF,
            (5, 0),
        ];
        // Two words: 15 and 14 are held, and 3 leads to 4 and 13. 14 is dropped; 15 goes to 5, which leads to 6 and 9, and becomes that.
        // 13 is pushed; 4 goes to 12 alone, since 5 is marked, and 12 leads to 10 and 11. So 13 is dropped, 5 is kept, and 11 pushed.
        // At the end 5 is popped, and 9 and 8 are pushed.
        // Three words: 15, 14 and 13 are held, and 4 leads to 5 and 12. 13 is kept; 14 is dropped, and 15, since 5 is marked. 12 and 9
        // are pushed, and 6 leads to 7 and 8. 9, 12 and 13 all lead to 10 and 11, which are unmarked: none went.
        // Four, and five: 12 is held too, and 9; the check for the next drops 14 and 15, and there is room for the rest. Six: no check.
        // One: 15 becomes 5 where 2 leads to 3 and 14, and none went.
        let expected = [(0, 0, 1), (1, 0, 1), (2, 1, 2), (3, 0, 2), (4, 1, 1), (5, 1, 1), (6, 1, 0)];
        stack_collections(pool, &linked(&[1], &links), 15, &expected);
    });
}

#[test]
fn the_checks_of_all_registers_add_up() {
    on_all(|pool| {
        // Two combs of five cells, in registers 0 and 3: a check each with one word, which drops cell 2, and cell 7.
        let comb = |first: u32| [(first + 2, first + 1), LEAF, (first + 4, first + 3), LEAF, LEAF];
        let links = [comb(1), comb(6)].concat();
        let expected = [(0, 0, 1), (1, 1, 2), (2, 1, 0)];
        stack_collections(pool, &linked(&[1, 0, 0, 6], &links), 10, &expected);
        // The second register holds a cell of the first comb: only one check.
        let expected = [(0, 0, 1), (1, 1, 1), (2, 1, 0)];
        stack_collections(pool, &linked(&[1, 3], &links[..5]), 5, &expected);
        // A good check for register 0, then one in vain for register 1: 6 leads to 7 and 8, 7 to 9 and 10, and 8, which is held, to 11 and
        // 12. The marks of the first register are cleared too.
        let fork = [(7, 8), (9, 10), (11, 12), LEAF, LEAF, LEAF, LEAF];
        let links = [comb(1).as_slice(), &fork].concat();
        let expected = [(0, 0, 1), (1, 0, 2), (2, 1, 0)];
        stack_collections(pool, &linked(&[1, 6], &links), 12, &expected);
        // The other way round: the first check is in vain, and no other comes.
        let expected = [(0, 0, 1), (1, 0, 1), (2, 1, 0)];
        stack_collections(pool, &linked(&[6, 1], &links), 12, &expected);
    });
}

#[test]
fn garbage_and_free_cells_stay_out_of_the_checks() {
    on_all(|pool| {
        // Cell 1 leads to 2 and 3, cell 2 to 4 and 5; cell 6 is garbage, cell 7 free. With one word 3 is held, which leads to 1 and nil: it
        // is dropped for 5.
        let cells = [[0, 2, 3, 1], [0, 4, 5, 2], [0, 1, 0, 3], [0, 0, 3, 4], [0, 5, 5, 5], [0, 1, 2, 6], [4, 0, 0, 0]];
        let mut after = cells;
        after[5] = [4, 7, 0, 0];
        for (length, enough, checks) in [(0, 0, 1), (1, 1, 1), (2, 1, 0), (3, 1, 0)] {
            let mut words = pool_words(7, &[0, 0, 0, 1], &cells);
            let mut stack = vec![3; length];
            assert_eq!(pool.collect_stack(&mut words, &mut stack), Ok((5, enough, checks)));
            assert_eq!(words, pool_words(6, &[0, 0, 0, 1], &after));
            assert_eq!(stack, vec![0; length]);
        }
    });
}

#[test]
fn new_collects_with_the_old_content_of_its_register_as_a_root() {
    on_all(|pool| {
        // Register 0 holds the only live cell and is also written: cell 2 is garbage and comes back.
        let mut words = pool_words(0, &[1], &[[0, 0, 0, 7], [0, 1, 1, 8]]);
        assert_eq!(pool.new_cell(&mut words, 0, 0, 0, 9), Ok(3));
        assert_eq!(words, pool_words(0, &[2], &[[0, 0, 0, 7], [0, 1, 1, 9]]));
        // The only cell is held by the register to be written: refused, though the cell would be garbage after.
        let full = pool_words(0, &[1], &[[0, 0, 0, 7]]);
        let mut words = full.clone();
        assert_eq!(pool.new_cell(&mut words, 0, 1, 1, 9), Err(5));
        assert_eq!(words, full);
    });
}

#[test]
fn new_takes_the_head_and_checks_only_it() {
    on_all(|pool| {
        // The head has to be free with a left of at most N; nothing else is.
        let cells = [[0, 9, 9, 1], [4, 3, 8, 8], [4, 0, 0, 0]];
        let mut words = pool_words(2, &[0, 0, 77], &cells);
        assert_eq!(pool.new_cell(&mut words, 5, 0, 1, 6), Ok(0));
        assert_eq!(words, pool_words(3, &[0, 0, 77, 0, 0, 2], &[[0, 9, 9, 1], [0, 0, 0, 6], [4, 0, 0, 0]]));
        // A head that is used, above N, or with a left above N.
        for (head, left, answer) in [(1, 0, Err(3)), (4, 0, Err(3)), (2, 4, Err(3)), (2, 3, Ok(0)), (2, 1, Ok(0))] {
            let cells = [[0, 0, 0, 1], [4, left, 0, 0], [4, 0, 0, 0]];
            let mut words = pool_words(head, &[], &cells);
            let before = words.clone();
            assert_eq!(pool.new_cell(&mut words, 0, 0, 0, 6), answer, "head {head}, left {left}");
            assert_eq!(words == before, answer.is_err());
        }
        // One new succeeds and leaves a used cell as the head: the next is refused, and collect repairs.
        let mut words = pool_words(2, &[1], &[[0, 0, 0, 1], [4, 1, 0, 0], [4, 0, 0, 0]]);
        assert_eq!(pool.new_cell(&mut words, 1, 0, 0, 6), Ok(0));
        assert_eq!(pool.new_cell(&mut words, 2, 0, 0, 6), Err(3));
        assert_eq!(pool.collect(&mut words), Ok((2, 6)));
        assert_eq!(words, pool_words(3, &[1, 2], &[[0, 0, 0, 1], [0, 1, 1, 6], [4, 0, 0, 0]]));
        // Head 0 with a free cell that no chain holds: new collects and finds it.
        let mut words = pool_words(0, &[1], &[[0, 0, 0, 1], [4, 9, 9, 9]]);
        assert_eq!(pool.new_cell(&mut words, 1, 0, 0, 6), Ok(3));
        assert_eq!(words, pool_words(0, &[1, 2], &[[0, 0, 0, 1], [0, 1, 1, 6]]));
    });
}

#[test]
fn links_are_read_and_written() {
    on_all(|pool| {
        let cells = [[0, 2, 0, 7], [0, 0, 1, 8], [4, 0, 0, 0]];
        let words = || pool_words(3, &[1, 2], &cells);
        let mut lent = words();
        assert_eq!(pool.left(&mut lent, 3, 0), Ok(()));
        assert_eq!(pool.right(&mut lent, 4, 1), Ok(()));
        assert_eq!(pool.right(&mut lent, 0, 0), Ok(()));
        assert_eq!(lent, pool_words(3, &[0, 2, 0, 2, 1], &cells));
        let mut lent = words();
        assert_eq!(pool.setleft(&mut lent, 1, 0), Ok(()));
        assert_eq!(pool.setright(&mut lent, 0, 0), Ok(()));
        assert_eq!(pool.setvalue(&mut lent, 1, 4_294_967_295), Ok(()));
        assert_eq!(lent, pool_words(3, &[1, 2], &[[0, 2, 1, 7], [0, 1, 1, 4_294_967_295], [4, 0, 0, 0]]));
        assert_eq!(pool.same(&mut lent, 0, 1), Ok(0));
        assert_eq!(pool.same(&mut lent, 5, 6), Ok(1));
        assert_eq!(pool.copy(&mut lent, 6, 1), Ok(()));
        assert_eq!(pool.same(&mut lent, 1, 6), Ok(1));
        assert_eq!(pool.value(&mut lent, 6), Ok(4_294_967_295));
    });
}

#[test]
fn refusals_come_in_the_order_of_the_document() {
    on_all(|pool| {
        // Register 1 is nil, register 2 holds a free cell, register 3 a number above N; cell 1 leads to a free cell.
        let words = pool_words(2, &[1, 0, 2, 3], &[[0, 2, 9, 7], [4, 0, 0, 0]]);
        let refused = |expected: u32, call: &dyn Fn(&mut [u32]) -> u32| {
            let mut lent = words.clone();
            assert_eq!(call(&mut lent), expected);
            assert_eq!(lent, words);
            let mut sized = words.clone();
            sized[0] = 3;
            assert_eq!(call(&mut sized), 1);
            assert_eq!(call(&mut sized[..25]), 1);
        };
        let code = |answer: Result<(), u32>| answer.err().unwrap_or(0);
        let number = |answer: Result<u32, u32>| answer.err().unwrap_or(0);
        refused(2, &|words| code(pool.copy(words, 16, 2)));
        refused(2, &|words| code(pool.copy(words, 0, 16)));
        refused(3, &|words| code(pool.copy(words, 0, 2)));
        refused(3, &|words| code(pool.copy(words, 0, 3)));
        refused(2, &|words| code(pool.clear(words, 16)));
        refused(2, &|words| number(pool.new_cell(words, 0, 3, 16, 0)));
        refused(3, &|words| number(pool.new_cell(words, 0, 1, 3, 0)));
        refused(2, &|words| code(pool.left(words, 4_294_967_295, 1)));
        refused(3, &|words| code(pool.left(words, 0, 2)));
        refused(4, &|words| code(pool.left(words, 0, 1)));
        refused(3, &|words| code(pool.left(words, 0, 0)));
        refused(3, &|words| code(pool.right(words, 0, 0)));
        // b is checked before a is found nil.
        refused(3, &|words| code(pool.setleft(words, 1, 2)));
        refused(3, &|words| code(pool.setright(words, 1, 3)));
        refused(4, &|words| code(pool.setright(words, 1, 1)));
        refused(4, &|words| code(pool.setleft(words, 1, 0)));
        refused(2, &|words| code(pool.setvalue(words, 16, 0)));
        refused(3, &|words| code(pool.setvalue(words, 2, 0)));
        refused(4, &|words| code(pool.setvalue(words, 1, 0)));
        refused(4, &|words| number(pool.value(words, 1)));
        refused(3, &|words| number(pool.value(words, 3)));
        refused(2, &|words| number(pool.same(words, 3, 16)));
        refused(3, &|words| number(pool.same(words, 1, 3)));
        refused(3, &|words| pool.collect(words).err().unwrap_or(0));
        refused(3, &|words| pool.collect_recursive(words).err().unwrap_or(0));
        // clear and copy do not read r: they repair a register.
        let mut lent = words.clone();
        assert_eq!(pool.clear(&mut lent, 2), Ok(()));
        assert_eq!(pool.copy(&mut lent, 3, 1), Ok(()));
        assert_eq!(lent, pool_words(2, &[1], &[[0, 2, 9, 7], [4, 0, 0, 0]]));
    });
}

#[test]
fn states_of_a_collection_make_a_pool_malformed() {
    on_all(|pool| {
        for state in [1, 2, 3, 6, 7, 8, u32::MAX] {
            let words = pool_words(0, &[1], &[[0, 0, 0, 7], [state, 0, 0, 0]]);
            let mut lent = words.clone();
            assert_eq!(pool.collect(&mut lent), Err(3));
            assert_eq!(pool.collect_stack(&mut lent, &mut [1]), Err(3));
            assert_eq!(pool.new_cell(&mut lent, 0, 0, 0, 1), Err(3));
            assert_eq!(pool.point(&mut lent, 0, 0, 0, 1), Err(3));
            assert_eq!(lent, words);
            assert_eq!(pool.value(&mut lent, 0), Ok(7));
        }
    });
}

/// Every form of collect on a pool that it leaves word for word: kept and visits.
fn every_word_stays(pool: &dyn Interface, words: &[u32], kept: u32, visits: u32) {
    let mut lent = words.to_vec();
    assert_eq!(pool.collect(&mut lent), Ok((kept, visits)));
    assert_eq!(lent, words);
    assert_eq!(pool.collect_recursive(&mut lent), Ok((kept, visits)));
    assert_eq!(lent, words);
    let mut tally = Tally { collections: 4, visits: 10 };
    assert_eq!(pool.collect_tally(&mut lent, &mut tally), Ok((kept, visits)));
    assert_eq!((lent.as_slice(), tally), (words, Tally { collections: 5, visits: 10 + visits }));
    for length in 0..3 {
        let mut stack = vec![7; length];
        assert_eq!(pool.collect_stack(&mut lent, &mut stack).map(|(kept, ..)| kept), Ok(kept));
        assert_eq!((lent.as_slice(), stack), (words, vec![0; length]));
    }
}

#[test]
fn a_point_takes_one_visit_and_stays() {
    on_all(|pool| {
        // One point: its x and y look like links to itself, past N, and are the largest number.
        for (x, y) in [(1, 1), (0, 2), (2, 1), (u32::MAX, u32::MAX)] {
            every_word_stays(pool, &pool_words(0, &[1], &[[5, x, y, 7]]), 1, 1);
            // In several registers: it is marked once.
            every_word_stays(pool, &pool_words(0, &[0, 1, 1], &[[5, x, y, 7]]), 1, 1);
        }
        // A pair with a point on each side: 3 + 1 + 1. The points' numbers look like links to all cells.
        let cells = [[0, 2, 3, 1], [5, 1, 3, 2], [5, 2, 1, 3]];
        every_word_stays(pool, &pool_words(0, &[1], &cells), 3, 5);
        // Both sides the same point: 3 + 1. And one that holds a pair and a point: 3 + 3 + 1.
        every_word_stays(pool, &pool_words(0, &[1], &[[0, 2, 2, 1], [5, 1, 1, 2]]), 2, 4);
        every_word_stays(pool, &pool_words(0, &[1], &[[0, 2, 3, 1], [5, 3, 3, 2], [0, 1, 2, 3]]), 3, 7);
        // A run begins at a point in register 0, and one at the pair in register 5, which finds the point marked.
        every_word_stays(pool, &pool_words(0, &[2, 0, 0, 0, 0, 1], &[[0, 2, 0, 1], [5, 9, 9, 2]]), 2, 4);
        // A chain of 63 pairs and a point at its end: 190 visits, and a depth of 64.
        let mut chain: Vec<[u32; 4]> = (1..=64).map(|i| [0, i + 1, 0, i]).collect();
        chain[63] = [5, 65, 1, 64];
        every_word_stays(pool, &pool_words(0, &[1], &chain), 64, 190);
        // Only points, of which register 3 holds one: the others are freed, whatever numbers they have.
        let cells = [[5, 2, 3, 1], [5, 1, 3, 2], [5, 1, 2, 3], [4, 7, 7, 7]];
        let mut words = pool_words(0, &[0, 0, 0, 2], &cells);
        assert_eq!(pool.collect(&mut words), Ok((1, 1)));
        let after = [[4, 3, 0, 0], [5, 1, 3, 2], [4, 4, 0, 0], [4, 0, 0, 0]];
        assert_eq!(words, pool_words(1, &[0, 0, 0, 2], &after));
    });
}

#[test]
fn the_numbers_of_a_point_are_not_judged() {
    on_all(|pool| {
        // They lead to a free cell, past N, and nowhere: the pool is well-formed. So is it with a register and a link to the point.
        for (x, y) in [(3, 4), (4, 0), (u32::MAX, 3)] {
            let words = pool_words(3, &[1, 2], &[[0, 2, 0, 7], [5, x, y, 8], [4, 0, 0, 0]]);
            let mut lent = words.clone();
            assert_eq!(pool.collect(&mut lent), Ok((2, 4)));
            assert_eq!(lent, words);
            assert_eq!(pool.left(&mut lent, 3, 0), Ok(()));
            assert_eq!(pool.same(&mut lent, 3, 1), Ok(1));
            // A point in a register is copied, and its value is read and written.
            assert_eq!(pool.copy(&mut lent, 4, 3), Ok(()));
            assert_eq!(pool.value(&mut lent, 4), Ok(8));
            assert_eq!(pool.setvalue(&mut lent, 4, 9), Ok(()));
            assert_eq!((pool.east(&mut lent, 4), pool.north(&mut lent, 4)), (Ok(x), Ok(y)));
            // A link is set to a point, and a new pair gets one.
            assert_eq!(pool.setright(&mut lent, 0, 1), Ok(()));
            assert_eq!(pool.new_cell(&mut lent, 5, 1, 3, 6), Ok(0));
            let cells = [[0, 2, 2, 7], [5, x, y, 9], [0, 2, 2, 6]];
            assert_eq!(lent, pool_words(0, &[1, 2, 0, 2, 2, 3], &cells));
        }
        // What 1, 2, 3 and 6 are inside a collection they are in no pool, where a link leads to such a cell.
        for state in [1, 2, 3, 4, 6, 7] {
            let mut words = pool_words(0, &[1, 2], &[[0, 2, 0, 7], [state, 0, 0, 8]]);
            assert_eq!(pool.copy(&mut words, 2, 1), Err(3));
            assert_eq!(pool.left(&mut words, 2, 0), Err(3));
            assert_eq!(pool.east(&mut words, 1), Err(3));
        }
    });
}

#[test]
fn points_are_made_as_pairs_are() {
    on_all(|pool| {
        // From the chain: the head, and no register is read.
        let mut words = fresh(pool, 2);
        words[17] = 99;
        assert_eq!(pool.point(&mut words, 3, 7, 1, 4_294_967_295), Ok(0));
        let mut expected = pool_words(2, &[0, 0, 0, 1], &[[5, 1, 4_294_967_295, 7], [4, 0, 0, 0]]);
        expected[17] = 99;
        assert_eq!(words, expected);
        // The other cell; then the pool is not well-formed, by register 15, and full when that is cleared.
        assert_eq!(pool.point(&mut words, 0, 8, 0, 0), Ok(0));
        assert_eq!(pool.point(&mut words, 0, 8, 0, 0), Err(3));
        assert_eq!(pool.clear(&mut words, 15), Ok(()));
        let full = pool_words(0, &[2, 0, 0, 1], &[[5, 1, 4_294_967_295, 7], [5, 0, 0, 8]]);
        assert_eq!(pool.point(&mut words, 0, 9, 2, 2), Err(5));
        assert_eq!(words, full);
        // It collects where no cell is free: 3 for the pair, 1 for the point that it reaches; cell 3 comes back.
        let mut words = pool_words(0, &[1], &[[0, 2, 0, 7], [5, 3, 3, 8], [5, 1, 1, 9]]);
        assert_eq!(pool.point(&mut words, 1, 5, 6, 7), Ok(4));
        assert_eq!(words, pool_words(0, &[1, 3], &[[0, 2, 0, 7], [5, 3, 3, 8], [5, 6, 7, 5]]));
        // The old content of its register is a root.
        let mut words = pool_words(0, &[1], &[[5, 1, 1, 7]]);
        assert_eq!(pool.point(&mut words, 0, 8, 2, 2), Err(5));
        assert_eq!(words, pool_words(0, &[1], &[[5, 1, 1, 7]]));
        let mut words = pool_words(0, &[1], &[[5, 1, 1, 7], [5, 2, 2, 6]]);
        assert_eq!(pool.point(&mut words, 0, 8, 3, 4), Ok(1));
        assert_eq!(words, pool_words(0, &[2], &[[5, 1, 1, 7], [5, 3, 4, 8]]));
        // A new pair reports the visits of a collection with points.
        let mut words = pool_words(0, &[1], &[[5, 1, 1, 7], [5, 2, 2, 6]]);
        assert_eq!(pool.new_cell(&mut words, 1, 0, 0, 8), Ok(1));
        assert_eq!(words, pool_words(0, &[1, 2], &[[5, 1, 1, 7], [0, 1, 1, 8]]));
        // The head has to be free with a left of at most N, and nothing else is asked for.
        for (head, state, left, answer) in
            [(1, 0, 0, Err(3)), (3, 4, 0, Err(3)), (2, 5, 0, Err(3)), (2, 4, 3, Err(3)), (2, 4, 2, Ok(0))]
        {
            let mut words = pool_words(head, &[9], &[[0, 9, 9, 1], [state, left, 0, 0]]);
            let before = words.clone();
            assert_eq!(pool.point(&mut words, 0, 6, 1, 1), answer, "head {head}, state {state}, left {left}");
            assert_eq!(words == before, answer.is_err());
        }
        // Only r is a register number.
        let mut words = fresh(pool, 1);
        let before = words.clone();
        assert_eq!(pool.point(&mut words, 16, 0, 0, 0), Err(2));
        assert_eq!(words, before);
        assert_eq!(pool.point(&mut words, 15, 16, 17, 18), Ok(0));
        assert_eq!(words[17..], [1, 5, 17, 18, 16]);
    });
}

#[test]
fn a_cell_of_the_other_kind_is_refused_after_nil_and_before_the_link() {
    on_all(|pool| {
        // Register 0 holds a pair whose links lead to a free cell and past N, register 1 a point with such numbers, register 2 is nil,
        // register 3 holds a free cell.
        let words = pool_words(3, &[1, 2, 0, 3], &[[0, 3, 9, 7], [5, 3, 9, 8], [4, 0, 0, 0]]);
        let code = |answer: Result<(), u32>| answer.err().unwrap_or(0);
        let number = |answer: Result<u32, u32>| answer.err().unwrap_or(0);
        type OnRegister<'a> = &'a dyn Fn(&mut [u32], u32) -> u32;
        // What is answered for the pair, the point, nil and the free cell, and for no register.
        let cases: [(OnRegister, [u32; 5]); 8] = [
            (&|words, a| code(pool.left(words, 4, a)), [3, 13, 4, 3, 2]),
            (&|words, a| code(pool.right(words, 4, a)), [3, 13, 4, 3, 2]),
            (&|words, a| code(pool.setleft(words, a, 2)), [0, 13, 4, 3, 2]),
            (&|words, a| code(pool.setright(words, a, 2)), [0, 13, 4, 3, 2]),
            (&|words, a| number(pool.east(words, a)), [13, 0, 4, 3, 2]),
            (&|words, a| number(pool.north(words, a)), [13, 0, 4, 3, 2]),
            (&|words, a| number(pool.value(words, a)), [0, 0, 4, 3, 2]),
            (&|words, a| code(pool.setvalue(words, a, 5)), [0, 0, 4, 3, 2]),
        ];
        for (place, (call, expected)) in cases.into_iter().enumerate() {
            for (a, expected) in [0, 1, 2, 3, 16].into_iter().zip(expected) {
                let mut lent = words.clone();
                assert_eq!(call(&mut lent, a), expected, "call {place}, register {a}");
                if expected != 0 {
                    assert_eq!(lent, words);
                }
                lent.copy_from_slice(&words);
                lent[0] = 4;
                assert_eq!(call(&mut lent, a), 1);
            }
        }
        // b is read before it is asked what a holds: 3 for a free cell in b, also where a holds a point; and 2 before that.
        let mut lent = words.clone();
        assert_eq!(pool.setleft(&mut lent, 1, 3), Err(3));
        assert_eq!(pool.setright(&mut lent, 1, 3), Err(3));
        assert_eq!(pool.setright(&mut lent, 1, 16), Err(2));
        assert_eq!(pool.left(&mut lent, 16, 1), Err(2));
        assert_eq!(lent, words);
        assert_eq!((pool.east(&mut lent, 1), pool.north(&mut lent, 1)), (Ok(3), Ok(9)));
    });
}

#[test]
fn images_of_pairs_and_points() {
    on_all(|pool| {
        // Register 2 holds cell 4, a pair with the points 2 and 1; register 0 the point 1. The numbers of the points look like links, and
        // stay what they are: 1 and 4 of cell 2, 300 and 2 of cell 1. Cell 3, a point, is garbage.
        let cells = [[5, 300, 2, 8], [5, 1, 4, 128], [5, 1, 1, 1], [0, 2, 1, 7]];
        let words = pool_words(9, &[1, 0, 4], &cells);
        // The visits: 1 from register 0; then 4, its left 2, and its right 1 once more.
        let bytes = image(3, &[1, 0, 2], &[1, 0xAC, 0x02, 2, 8, 0, 3, 1, 7, 1, 1, 4, 0x80, 0x01]);
        let (mut lent, mut scratch, mut out) = (words.clone(), vec![5; 8], [0x55; 32]);
        assert_eq!(pool.save(&mut lent, &mut scratch, &mut out), Ok(31));
        assert_eq!(out[..31], bytes);
        assert_eq!((out[31], &lent, scratch), (0x55, &words, vec![0; 8]));
        assert_eq!(pool.check_image(&bytes, 3), Ok(()));
        assert_eq!(pool.check_image(&bytes, 2), Err(9));
        let mut loaded = vec![1; 38];
        assert_eq!(pool.load(&mut loaded, &out), (Ok(()), 31));
        let cells = [[5, 300, 2, 8], [0, 3, 1, 7], [5, 1, 4, 128], [4, 5, 0, 0], [4, 0, 0, 0]];
        assert_eq!(loaded, pool_words(4, &[1, 0, 2], &cells));
        // Every cut is refused.
        for length in 0..31 {
            assert_eq!(pool.check_image(&bytes[..length], 3), Err(6));
        }
        // A point that nothing reaches is loaded and not saved.
        let bytes = image(1, &[], &[1, 9, 9, 9]);
        let mut loaded = vec![1; 22];
        assert_eq!(pool.load(&mut loaded, &bytes), (Ok(()), 21));
        assert_eq!(loaded, pool_words(0, &[], &[[5, 9, 9, 9]]));
        assert_eq!(pool.save(&mut loaded, &mut [7; 2], &mut out), Ok(17));
    });
}

/// The image that is saved of these words, which stay.
fn saved(pool: &dyn Interface, words: &[u32]) -> Vec<u8> {
    let (mut lent, mut scratch, mut out) = (words.to_vec(), vec![5; 2 * words[0] as usize], vec![0x55; 100]);
    let bytes = pool.save(&mut lent, &mut scratch, &mut out).expect("the pool is well-formed");
    assert_eq!(lent, words);
    out.truncate(bytes);
    out
}

/// The answers to a list of reads, started from these words.
fn answers(pool: &dyn Interface, words: &[u32], reads: &[Call]) -> Vec<Answer> {
    let mut lent = words.to_vec();
    reads.iter().map(|&call| apply(pool, &mut lent, call).0).collect()
}

/// What the search for reads finds.
fn distinction(one: &[u32], other: &[u32]) -> Option<Distinction> {
    let [one, other] = [one, other].map(|words| Pool::decode(words).expect("the size is right"));
    distinguish(&one, &other)
}

#[test]
fn the_same_plan_in_two_pools_is_the_same_file() {
    // Three cells, all kept: a pair with a point on its left and on its right a pair that leads back to both. Register 0 holds the
    // first, register 5 the point.
    let registers = [1, 0, 0, 0, 0, 2];
    let small = pool_words(0, &registers, &[[0, 2, 3, 7], [5, 300, 4, 8], [0, 1, 2, 128]]);
    // The same in six cells, with three words left over: the first pair is cell 5, the point 6, the other pair 2. Cell 1, a pair that
    // leads to the first and to cell 4, and the point 4 are garbage, and cell 3 is free.
    let registers = [5, 0, 0, 0, 0, 6];
    let cells = [[0, 5, 4, 9], [0, 5, 6, 128], [4, 0, 0, 0], [5, 1, 2, 3], [0, 6, 2, 7], [5, 300, 4, 8]];
    let large = [pool_words(3, &registers, &cells), vec![0, 1, 2]].concat();
    // By hand: K 3; registers 0 and 5 hold 1 and 2; 1 is a pair with links 2 and 3 and value 7; 2 a point with x 300, y 4 and value
    // 8; 3 a pair with links 1 and 2 and value 128.
    let bytes = image(3, &[1, 0, 0, 0, 0, 2], &[0, 2, 3, 7, 1, 0xAC, 0x02, 4, 8, 0, 1, 2, 0x80, 0x01]);
    let reads = [
        (Call::Left { r: 1, a: 0 }, Answer::Done),
        (Call::East { a: 1 }, Answer::Number(300)),
        (Call::North { a: 1 }, Answer::Number(4)),
        (Call::Value { a: 1 }, Answer::Number(8)),
        (Call::Left { r: 2, a: 1 }, Answer::Refused(13)),
        (Call::Same { a: 1, b: 5 }, Answer::Number(1)),
        (Call::Right { r: 2, a: 0 }, Answer::Done),
        (Call::Value { a: 2 }, Answer::Number(128)),
        (Call::North { a: 2 }, Answer::Refused(13)),
        (Call::Left { r: 3, a: 2 }, Answer::Done),
        (Call::Same { a: 3, b: 0 }, Answer::Number(1)),
        (Call::Same { a: 3, b: 2 }, Answer::Number(0)),
        (Call::Right { r: 2, a: 2 }, Answer::Done),
        (Call::Same { a: 2, b: 5 }, Answer::Number(1)),
        (Call::Copy { r: 16, a: 0 }, Answer::Refused(2)),
        (Call::Clear { r: 0 }, Answer::Done),
        (Call::Value { a: 0 }, Answer::Refused(4)),
        (Call::Same { a: 0, b: 15 }, Answer::Number(1)),
    ];
    on_all(|pool| {
        for words in [&small, &large] {
            assert_eq!(saved(pool, words), bytes);
            assert_eq!(answers(pool, words, &reads.map(|(call, _)| call)), reads.map(|(_, answer)| answer));
        }
    });
    assert_eq!((distinction(&small, &large), distinction(&large, &small)), (None, None));
}

#[test]
fn a_shared_leaf_and_two_equal_leaves_are_different_files() {
    // A pair with value 7, and one leaf for both links or two: pairs without links, or points with x 1 and y 2, of value 8.
    for leaf in [[0, 0, 0, 8], [5, 1, 2, 8]] {
        let shared = pool_words(0, &[1], &[[0, 2, 2, 7], leaf]);
        let apart = pool_words(0, &[1], &[[0, 2, 3, 7], leaf, leaf]);
        // By hand: K 2, register 0 holds 1, a pair with both links to 2, and the leaf once; K 3, links to 2 and 3, and it comes twice.
        let written: &[u8] = if leaf[0] == 0 { &[0, 0, 0, 8] } else { &[1, 1, 2, 8] };
        let images = [[&[0, 2, 2, 7], written].concat(), [&[0, 2, 3, 7], written, written].concat()];
        let told = [Call::Left { r: 1, a: 0 }, Call::Right { r: 2, a: 0 }, Call::Same { a: 1, b: 2 }];
        // No other read of the leaves tells.
        let alike: Vec<Call> = [1, 2]
            .into_iter()
            .flat_map(|a| [Call::Value { a }, Call::East { a }, Call::North { a }, Call::Left { r: a, a }])
            .collect();
        on_all(|pool| {
            assert_eq!(saved(pool, &shared), image(2, &[1], &images[0]));
            assert_eq!(saved(pool, &apart), image(3, &[1], &images[1]));
            assert_eq!(answers(pool, &shared, &told), [Answer::Done, Answer::Done, Answer::Number(1)]);
            assert_eq!(answers(pool, &apart, &told), [Answer::Done, Answer::Done, Answer::Number(0)]);
            let reads = [&told[..2], &alike].concat();
            assert_eq!(answers(pool, &shared, &reads), answers(pool, &apart, &reads));
        });
        // The search walks the one path in register 1, and the other in register 0 itself.
        let reads = vec![
            Call::Copy { r: 1, a: 0 },
            Call::Left { r: 1, a: 1 },
            Call::Right { r: 0, a: 0 },
            Call::Same { a: 1, b: 0 },
        ];
        let found = |difference: Difference| Some(Distinction { difference, reads: reads.clone() });
        assert_eq!(distinction(&shared, &apart), found(Difference::SharedInFirst));
        assert_eq!(distinction(&apart, &shared), found(Difference::SharedInSecond));
    }
}

#[test]
fn points_that_differ_in_y_alone_are_different_files_and_only_north_tells() {
    // Register 3 holds a point with x 9, y 10 or 11, and value 6.
    let words = [10, 11].map(|y| pool_words(0, &[0, 0, 0, 1], &[[5, 9, y, 6]]));
    let others = [
        (Call::Value { a: 3 }, Answer::Number(6)),
        (Call::East { a: 3 }, Answer::Number(9)),
        (Call::Left { r: 3, a: 3 }, Answer::Refused(13)),
        (Call::Right { r: 3, a: 3 }, Answer::Refused(13)),
        (Call::Copy { r: 4, a: 3 }, Answer::Done),
        (Call::Same { a: 4, b: 3 }, Answer::Number(1)),
        (Call::North { a: 5 }, Answer::Refused(4)),
        (Call::Clear { r: 3 }, Answer::Done),
    ];
    on_all(|pool| {
        for (words, y) in words.iter().zip([10, 11]) {
            // By hand: K 1, register 3 holds 1, kind 1, x, y and value.
            assert_eq!(saved(pool, words), image(1, &[0, 0, 0, 1], &[1, 9, y as u8, 6]));
            assert_eq!(answers(pool, words, &[Call::North { a: 3 }]), [Answer::Number(y)]);
            assert_eq!(answers(pool, words, &others.map(|(call, _)| call)), others.map(|(_, answer)| answer));
        }
    });
    let reads = vec![Call::North { a: 3 }];
    assert_eq!(distinction(&words[0], &words[1]), Some(Distinction { difference: Difference::Y, reads }));
}

#[test]
fn images_of_the_form_before_are_refused() {
    on_all(|pool| {
        // What 02, S-8 changed: left, right and value of each cell, without kinds. The numbers are those that the new form finds.
        let cases: [(Vec<u8>, u32); 8] = [
            // A leaf with value 5: kind 0, left 0, right 5, above K.
            (image(1, &[1], &[0, 0, 5]), 8),
            // Value 1: kind 0, left 0, right 1, no value.
            (image(1, &[1], &[0, 0, 1]), 6),
            // Linked to itself: kind 1, x 1, y 5, no value.
            (image(1, &[1], &[1, 1, 5]), 6),
            // Two cells: kind 2.
            (image(2, &[1], &[2, 0, 7, 0, 0, 8]), 14),
            (image(2, &[1], &[2, 2, 0xAC, 0x02, 0, 0, 8]), 14),
            // Kind 0, left 2, right 1, value 0; then kind 0, left 0 and nothing.
            (image(2, &[1], &[0, 2, 1, 0, 0, 0]), 6),
            // Kind 1, x 2, y 9, value 0; then kind 2.
            (image(2, &[1], &[1, 2, 9, 0, 2, 8]), 14),
            // Three cells: nine numbers are two cells and a kind.
            (image(3, &[1], &[0, 0, 0, 0, 0, 0, 0, 0, 0]), 6),
        ];
        for (bytes, refusal) in cases {
            for n in [3, 4, 4_000] {
                assert_eq!(pool.check_image(&bytes, n), Err(refusal), "{bytes:02X?}");
                let mut words = vec![9; 18 + 4 * n as usize];
                assert_eq!(pool.load(&mut words, &bytes), (Err(refusal), bytes.len()));
                assert_eq!(words, vec![9; 18 + 4 * n as usize]);
            }
        }
        // Without cells the forms are the same.
        assert_eq!(pool.check_image(&[0; 17], 1), Ok(()));
    });
}

#[test]
fn the_stack_marker_takes_a_point_for_a_leaf() {
    on_all(|pool| {
        // The worst case of five cells with points for its leaves 2 and 4, whose numbers look like links to cells that are unmarked
        // then: two words are held as for leaves, and one word makes one check, which drops 2.
        let cells = [[0, 3, 2, 1], [5, 4, 5, 2], [0, 5, 4, 3], [5, 5, 3, 4], [0, 0, 0, 5]];
        stack_collections(pool, &pool_words(0, &[1], &cells), 5, &[(0, 0, 1), (1, 1, 1), (2, 1, 0)]);
        // A pair with two points takes a word; with the same point twice none.
        let two = pool_words(0, &[1], &[[0, 2, 3, 1], [5, 3, 3, 2], [5, 2, 2, 3]]);
        stack_collections(pool, &two, 3, &[(0, 0, 1), (1, 1, 0)]);
        stack_collections(pool, &pool_words(0, &[1], &[[0, 2, 2, 1], [5, 1, 0, 2]]), 2, &[(0, 1, 0)]);
        // A check walks from 3 to 6, a point, and drops the entry: the point's numbers do not lead to 7, which 4 reaches.
        let cells = [[0, 2, 3, 1], [0, 4, 5, 2], [0, 6, 6, 3], [0, 7, 0, 4], [5, 7, 7, 5], [5, 7, 4, 6], [0, 0, 0, 7]];
        stack_collections(pool, &pool_words(0, &[1], &cells), 7, &[(0, 0, 1), (1, 1, 1), (2, 1, 0)]);
        // A check in vain: 3 leads to the points 6 and 7, which stay unmarked; reversal then marks all, points too.
        let cells = [[0, 2, 3, 1], [0, 4, 5, 2], [0, 6, 7, 3], [5, 1, 1, 4], [5, 2, 2, 5], [5, 3, 3, 6], [5, 4, 4, 7]];
        stack_collections(pool, &pool_words(0, &[1], &cells), 7, &[(0, 0, 1), (1, 0, 1), (2, 1, 0)]);
    });
}

#[test]
fn a_script_with_points() {
    on_all(|pool| {
        let mut words = fresh(pool, 3);
        assert_eq!(pool.point(&mut words, 0, 150, 12, 34), Ok(0));
        assert_eq!(pool.new_cell(&mut words, 1, 0, 15, 900), Ok(0));
        assert_eq!(pool.east(&mut words, 0), Ok(12));
        assert_eq!(pool.north(&mut words, 0), Ok(34));
        assert_eq!(pool.left(&mut words, 2, 1), Ok(()));
        assert_eq!(pool.same(&mut words, 0, 2), Ok(1));
        assert_eq!(pool.left(&mut words, 2, 0), Err(13));
        assert_eq!(pool.east(&mut words, 1), Err(13));
        assert_eq!(pool.collect(&mut words), Ok((2, 4)));
        assert_eq!(words, pool_words(3, &[1, 2, 1], &[[5, 12, 34, 150], [0, 1, 0, 900], [4, 0, 0, 0]]));
        assert_eq!(pool.point(&mut words, 0, 160, 56, 78), Ok(0));
        // Full: all three are held; once register 0 is cleared the third is freed, at the cost of 3 + 1 visits.
        assert_eq!(pool.point(&mut words, 3, 0, 0, 0), Err(5));
        assert_eq!(pool.clear(&mut words, 0), Ok(()));
        assert_eq!(pool.point(&mut words, 3, 170, 90, 10), Ok(4));
        assert_eq!(pool.setleft(&mut words, 1, 3), Ok(()));
        assert_eq!(pool.clear(&mut words, 2), Ok(()));
        assert_eq!(pool.collect(&mut words), Ok((2, 4)));
        assert_eq!(words, pool_words(1, &[0, 2, 0, 3], &[[4, 0, 0, 0], [0, 3, 0, 900], [5, 90, 10, 170]]));
    });
}

#[test]
fn the_recursive_marker_has_its_own_limit() {
    on_all(|pool| {
        let chain = |n: u32| -> Vec<[u32; 4]> { (1..=n).map(|i| [0, 0, (i + 1) % (n + 1), i]).collect() };
        let words = pool_words(0, &[1], &chain(64));
        let mut lent = words.clone();
        assert_eq!(pool.collect_recursive(&mut lent), Ok((64, 192)));
        assert_eq!(lent, words);
        let mut longer = pool_words(0, &[1], &chain(65));
        assert_eq!(pool.collect_recursive(&mut longer), Err(11));
        longer[2] = 99;
        assert_eq!(pool.collect_recursive(&mut longer), Err(11));
        longer[0] = 64;
        assert_eq!(pool.collect_recursive(&mut longer), Err(1));
    });
}

#[test]
fn the_tally_stops_at_its_limit() {
    on_all(|pool| {
        let words = pool_words(0, &[1], &[[0, 0, 0, 7]]);
        let most = u32::MAX;
        for (before, after) in
            [((0, 0), (1, 3)), ((most - 1, most - 3), (most, most)), ((most, most - 2), (most, most))]
        {
            let mut tally = Tally { collections: before.0, visits: before.1 };
            let mut lent = words.clone();
            assert_eq!(pool.collect_tally(&mut lent, &mut tally), Ok((1, 3)));
            assert_eq!(tally, Tally { collections: after.0, visits: after.1 });
            assert_eq!(lent, words);
        }
        let mut tally = Tally { collections: 5, visits: 6 };
        let mut malformed = pool_words(0, &[2], &[[0, 0, 0, 7]]);
        assert_eq!(pool.collect_tally(&mut malformed, &mut tally), Err(3));
        assert_eq!(tally, Tally { collections: 5, visits: 6 });
    });
}

/// Kept, N and the percent: "the percent goes to the nearest whole number, and an exact half to the even one" (02, S-7).
const PERCENTAGES: [(u32, u32, u32); 58] = [
    // The customer's: 0.5, 1.5, 33.3 and 66.7.
    (1, 200, 0),
    (3, 200, 2),
    (1, 3, 33),
    (2, 3, 67),
    // Whole percents: none, all and some.
    (0, 1, 0),
    (0, 3, 0),
    (0, 4_000, 0),
    (1, 1, 100),
    (3, 3, 100),
    (200, 200, 100),
    (4_000, 4_000, 100),
    (1, 2, 50),
    (3, 4, 75),
    (2, 200, 1),
    (4, 200, 2),
    (2_000, 4_000, 50),
    (3_960, 4_000, 99),
    // Halves of 200 cells: 2.5, 3.5, 28.5, 49.5, 50.5, 57.5, 98.5, 99.5.
    (5, 200, 2),
    (7, 200, 4),
    (57, 200, 28),
    (99, 200, 50),
    (101, 200, 50),
    (115, 200, 58),
    (197, 200, 98),
    (199, 200, 100),
    // Of 40 cells: 2.5, 7.5, 92.5, 97.5; of 8: 12.5, 37.5, 62.5, 87.5; of 24 the last two again.
    (1, 40, 2),
    (3, 40, 8),
    (37, 40, 92),
    (39, 40, 98),
    (1, 8, 12),
    (3, 8, 38),
    (5, 8, 62),
    (7, 8, 88),
    (15, 24, 62),
    (21, 24, 88),
    // Of 4,000 cells: 0.5, 1.5, 98.5, 99.5, and a cell less and more, which is a 40th of a percent; of 3,992: 12.5 and 87.5.
    (19, 4_000, 0),
    (20, 4_000, 0),
    (21, 4_000, 1),
    (59, 4_000, 1),
    (60, 4_000, 2),
    (61, 4_000, 2),
    (3_939, 4_000, 98),
    (3_940, 4_000, 98),
    (3_941, 4_000, 99),
    (3_979, 4_000, 99),
    (3_980, 4_000, 100),
    (3_981, 4_000, 100),
    (499, 3_992, 12),
    (3_493, 3_992, 88),
    // Near a half or a whole percent: 1.49, 2.53, 49.99, 50.01.
    (1, 67, 1),
    (2, 79, 3),
    (1_999, 3_999, 50),
    (2_000, 3_999, 50),
    // One cell kept, and one free: 0.025 and 99.975 of 4,000 cells, 0.503 and 99.497 of 199.
    (1, 4_000, 0),
    (3_999, 4_000, 100),
    (1, 199, 1),
    (198, 199, 99),
    // A product of 16 bits would begin again at 656 cells kept: 65,600 / 4,000 is 16.4.
    (656, 4_000, 16),
];

#[test]
fn percentages() {
    on_all(|pool| {
        for (kept, n, percent) in PERCENTAGES {
            assert_eq!(pool.occupancy(kept, n), Ok(percent), "{kept} of {n}");
        }
        // Up to 199 cells one kept cell shows, and one free cell; from 200 on neither does, as the header states.
        for n in 1..=4_000 {
            assert_eq!(pool.occupancy(1, n) == Ok(0), n >= 200, "1 of {n}");
            assert_eq!(pool.occupancy(n - 1, n) == Ok(100), n >= 200, "all but one of {n}");
        }
        assert_eq!(pool.occupancy(2, 1), Err(1));
        assert_eq!(pool.occupancy(0, 0), Err(1));
        assert_eq!(pool.occupancy(1, 4_001), Err(1));
        assert_eq!(pool.occupancy(4_294_967_295, 4_294_967_295), Err(1));
    });
}
