//! The library under test, and the C baseline, behind safe functions.
//!
//! Every result is lent with a number that no call writes by chance, so that a refusal that writes it is noticed, and stands
//! between two more of these, which no call may write.

#[cfg(c_baseline)]
use crate::visit::{Marking, CASES};
#[cfg(c_baseline)]
use crate::CELL;
use crate::{Interface, Tally};
use std::fmt::Debug;

const UNSET: u32 = 0xA5A5_1234;
const UNSET_SIZE: usize = usize::MAX - 0x1234;

fn done(answer: u32) -> Result<(), u32> {
    if answer == 0 {
        Ok(())
    } else {
        Err(answer)
    }
}

/// Lend numbers for results to a call.
fn results<T: Copy + PartialEq + Debug, const N: usize>(
    unset: T,
    call: impl FnOnce([*mut T; N]) -> u32,
) -> Result<[T; N], u32> {
    let mut lent = [[unset; 3]; N];
    let answer = call(lent.each_mut().map(|[_, number, _]| number as *mut T));
    assert!(lent.iter().all(|[before, _, behind]| (before, behind) == (&unset, &unset)), "beside a result: {lent:X?}");
    let numbers = lent.map(|[_, number, _]| number);
    if answer != 0 {
        assert_eq!(numbers, [unset; N], "refusal {answer} wrote its result");
        return Err(answer);
    }
    Ok(numbers)
}

/// Declare the functions of one library and give them the common interface. Those of points are there under a condition.
//
// SAFETY, for every call below: each pointer comes from a reference or slice that lives through the call, with its
// length in elements beside it; no two of them overlap; pointers of empty slices are aligned and not null.
macro_rules! bind {
    (
        $(#[$about:meta])* $type:ident, with points $has_points:meta:
        $fresh:ident, $copy:ident, $clear:ident, $new:ident, $point:ident, $left:ident, $right:ident, $setleft:ident,
        $setright:ident, $setvalue:ident, $value:ident, $east:ident, $north:ident, $same:ident, $collect:ident, $collect_tally:ident,
        $collect_stack:ident, $worst_case:ident, $collect_recursive:ident, $save:ident, $load:ident, $check_image:ident,
        $occupancy:ident $(,)?
    ) => {
        extern "C" {
            fn $fresh(words: *mut u32, len: usize, cells: *mut u32, leftover: *mut u32) -> u32;
            fn $copy(words: *mut u32, len: usize, r: u32, a: u32) -> u32;
            fn $clear(words: *mut u32, len: usize, r: u32) -> u32;
            fn $new(words: *mut u32, len: usize, r: u32, a: u32, b: u32, v: u32, visits: *mut u32) -> u32;
            #[cfg($has_points)]
            fn $point(words: *mut u32, len: usize, r: u32, v: u32, x: u32, y: u32, visits: *mut u32) -> u32;
            fn $left(words: *mut u32, len: usize, r: u32, a: u32) -> u32;
            fn $right(words: *mut u32, len: usize, r: u32, a: u32) -> u32;
            fn $setleft(words: *mut u32, len: usize, a: u32, b: u32) -> u32;
            fn $setright(words: *mut u32, len: usize, a: u32, b: u32) -> u32;
            fn $setvalue(words: *mut u32, len: usize, a: u32, v: u32) -> u32;
            fn $value(words: *const u32, len: usize, a: u32, value: *mut u32) -> u32;
            #[cfg($has_points)]
            fn $east(words: *const u32, len: usize, a: u32, x: *mut u32) -> u32;
            #[cfg($has_points)]
            fn $north(words: *const u32, len: usize, a: u32, y: *mut u32) -> u32;
            fn $same(words: *const u32, len: usize, a: u32, b: u32, same: *mut u32) -> u32;
            fn $collect(words: *mut u32, len: usize, kept: *mut u32, visits: *mut u32) -> u32;
            fn $collect_tally(
                words: *mut u32,
                len: usize,
                collections: *mut u32,
                total_visits: *mut u32,
                kept: *mut u32,
                visits: *mut u32,
            ) -> u32;
            fn $collect_stack(
                words: *mut u32,
                len: usize,
                stack: *mut u32,
                stack_len: usize,
                kept: *mut u32,
                enough: *mut u32,
                checks: *mut u32,
            ) -> u32;
            fn $worst_case(words: *mut u32, len: usize, entries: *mut u32) -> u32;
            fn $collect_recursive(words: *mut u32, len: usize, kept: *mut u32, visits: *mut u32) -> u32;
            fn $save(
                words: *const u32,
                len: usize,
                scratch: *mut u32,
                scratch_len: usize,
                out: *mut u8,
                out_len: usize,
                bytes: *mut usize,
            ) -> u32;
            fn $load(words: *mut u32, len: usize, bytes: *const u8, bytes_len: usize, rest: *mut usize) -> u32;
            fn $check_image(bytes: *const u8, bytes_len: usize, n: u32) -> u32;
            fn $occupancy(kept: u32, n: u32, percent: *mut u32) -> u32;
        }

        $(#[$about])*
        #[derive(Clone, Copy, Debug, Default)]
        pub struct $type;

        impl Interface for $type {
            fn fresh(&self, words: &mut [u32]) -> Result<(u32, u32), u32> {
                results(UNSET, |[cells, leftover]| unsafe {
                    $fresh(words.as_mut_ptr(), words.len(), cells, leftover)
                })
                .map(|[cells, leftover]| (cells, leftover))
            }

            fn copy(&self, words: &mut [u32], r: u32, a: u32) -> Result<(), u32> {
                done(unsafe { $copy(words.as_mut_ptr(), words.len(), r, a) })
            }

            fn clear(&self, words: &mut [u32], r: u32) -> Result<(), u32> {
                done(unsafe { $clear(words.as_mut_ptr(), words.len(), r) })
            }

            fn new_cell(&self, words: &mut [u32], r: u32, a: u32, b: u32, v: u32) -> Result<u32, u32> {
                results(UNSET, |[visits]| unsafe { $new(words.as_mut_ptr(), words.len(), r, a, b, v, visits) })
                    .map(|[visits]| visits)
            }

            #[cfg($has_points)]
            fn point(&self, words: &mut [u32], r: u32, v: u32, x: u32, y: u32) -> Result<u32, u32> {
                results(UNSET, |[visits]| unsafe { $point(words.as_mut_ptr(), words.len(), r, v, x, y, visits) })
                    .map(|[visits]| visits)
            }

            #[cfg($has_points)]
            fn east(&self, words: &mut [u32], a: u32) -> Result<u32, u32> {
                results(UNSET, |[x]| unsafe { $east(words.as_ptr(), words.len(), a, x) }).map(|[x]| x)
            }

            #[cfg($has_points)]
            fn north(&self, words: &mut [u32], a: u32) -> Result<u32, u32> {
                results(UNSET, |[y]| unsafe { $north(words.as_ptr(), words.len(), a, y) }).map(|[y]| y)
            }

            #[cfg(not($has_points))]
            fn point(&self, _: &mut [u32], _: u32, _: u32, _: u32, _: u32) -> Result<u32, u32> {
                unreachable!("this version has no points")
            }

            #[cfg(not($has_points))]
            fn east(&self, _: &mut [u32], _: u32) -> Result<u32, u32> {
                unreachable!("this version has no points")
            }

            #[cfg(not($has_points))]
            fn north(&self, _: &mut [u32], _: u32) -> Result<u32, u32> {
                unreachable!("this version has no points")
            }

            fn left(&self, words: &mut [u32], r: u32, a: u32) -> Result<(), u32> {
                done(unsafe { $left(words.as_mut_ptr(), words.len(), r, a) })
            }

            fn right(&self, words: &mut [u32], r: u32, a: u32) -> Result<(), u32> {
                done(unsafe { $right(words.as_mut_ptr(), words.len(), r, a) })
            }

            fn setleft(&self, words: &mut [u32], a: u32, b: u32) -> Result<(), u32> {
                done(unsafe { $setleft(words.as_mut_ptr(), words.len(), a, b) })
            }

            fn setright(&self, words: &mut [u32], a: u32, b: u32) -> Result<(), u32> {
                done(unsafe { $setright(words.as_mut_ptr(), words.len(), a, b) })
            }

            fn setvalue(&self, words: &mut [u32], a: u32, v: u32) -> Result<(), u32> {
                done(unsafe { $setvalue(words.as_mut_ptr(), words.len(), a, v) })
            }

            fn value(&self, words: &mut [u32], a: u32) -> Result<u32, u32> {
                results(UNSET, |[value]| unsafe { $value(words.as_ptr(), words.len(), a, value) })
                    .map(|[value]| value)
            }

            fn same(&self, words: &mut [u32], a: u32, b: u32) -> Result<u32, u32> {
                results(UNSET, |[same]| unsafe { $same(words.as_ptr(), words.len(), a, b, same) })
                    .map(|[same]| same)
            }

            fn collect(&self, words: &mut [u32]) -> Result<(u32, u32), u32> {
                results(UNSET, |[kept, visits]| unsafe { $collect(words.as_mut_ptr(), words.len(), kept, visits) })
                    .map(|[kept, visits]| (kept, visits))
            }

            fn collect_tally(&self, words: &mut [u32], tally: &mut Tally) -> Result<(u32, u32), u32> {
                let mut lent = [UNSET, tally.collections, UNSET, tally.visits, UNSET];
                let [_, collections, _, total, _] = lent.each_mut().map(|number| number as *mut u32);
                let answer = results(UNSET, |[kept, visits]| unsafe {
                    $collect_tally(words.as_mut_ptr(), words.len(), collections, total, kept, visits)
                });
                assert_eq!([lent[0], lent[2], lent[4]], [UNSET; 3], "beside the tally: {lent:X?}");
                *tally = Tally { collections: lent[1], visits: lent[3] };
                answer.map(|[kept, visits]| (kept, visits))
            }

            fn collect_stack(&self, words: &mut [u32], stack: &mut [u32]) -> Result<(u32, u32, u32), u32> {
                results(UNSET, |[kept, enough, checks]| unsafe {
                    let (lent, length) = (stack.as_mut_ptr(), stack.len());
                    $collect_stack(words.as_mut_ptr(), words.len(), lent, length, kept, enough, checks)
                })
                .map(|[kept, enough, checks]| (kept, enough, checks))
            }

            fn worst_case(&self, words: &mut [u32]) -> Result<u32, u32> {
                results(UNSET, |[entries]| unsafe { $worst_case(words.as_mut_ptr(), words.len(), entries) })
                    .map(|[entries]| entries)
            }

            fn collect_recursive(&self, words: &mut [u32]) -> Result<(u32, u32), u32> {
                results(UNSET, |[kept, visits]| unsafe {
                    $collect_recursive(words.as_mut_ptr(), words.len(), kept, visits)
                })
                .map(|[kept, visits]| (kept, visits))
            }

            fn save(&self, words: &mut [u32], scratch: &mut [u32], out: &mut [u8]) -> Result<usize, u32> {
                results(UNSET_SIZE, |[bytes]| unsafe {
                    $save(
                        words.as_ptr(),
                        words.len(),
                        scratch.as_mut_ptr(),
                        scratch.len(),
                        out.as_mut_ptr(),
                        out.len(),
                        bytes,
                    )
                })
                .map(|[bytes]| bytes)
            }

            fn load(&self, words: &mut [u32], bytes: &[u8]) -> (Result<(), u32>, usize) {
                let mut rest = [UNSET_SIZE; 3];
                let answer =
                    unsafe { $load(words.as_mut_ptr(), words.len(), bytes.as_ptr(), bytes.len(), &mut rest[1]) };
                assert_eq!([rest[0], rest[2]], [UNSET_SIZE; 2], "beside the rest: {rest:X?}");
                (done(answer), rest[1])
            }

            fn check_image(&self, bytes: &[u8], n: u32) -> Result<(), u32> {
                done(unsafe { $check_image(bytes.as_ptr(), bytes.len(), n) })
            }

            fn occupancy(&self, kept: u32, n: u32) -> Result<u32, u32> {
                results(UNSET, |[percent]| unsafe { $occupancy(kept, n, percent) }).map(|[percent]| percent)
            }
        }
    };
}

bind! {
    /// The static library.
    Archive, with points all():
    cellpool_fresh, cellpool_copy, cellpool_clear, cellpool_new, cellpool_point, cellpool_left, cellpool_right,
    cellpool_setleft, cellpool_setright, cellpool_setvalue, cellpool_value, cellpool_east, cellpool_north, cellpool_same, cellpool_collect,
    cellpool_collect_tally, cellpool_collect_stack, cellpool_worst_case, cellpool_collect_recursive, cellpool_save,
    cellpool_load, cellpool_check_image, cellpool_occupancy
}

#[cfg(c_baseline)]
bind! {
    /// The same functions in plain C.
    PlainC, with points all():
    baseline_fresh, baseline_copy, baseline_clear, baseline_new, baseline_point, baseline_left, baseline_right, baseline_setleft, baseline_setright,
    baseline_setvalue, baseline_value, baseline_east, baseline_north, baseline_same, baseline_collect, baseline_collect_tally, baseline_collect_stack,
    baseline_worst_case, baseline_collect_recursive, baseline_save, baseline_load, baseline_check_image, baseline_occupancy
}

#[cfg(before)]
bind! {
    /// An earlier version of the library, 5.0.0 or later. Before 6.0.0 it rounds the percent down, and before 7.0.0 it has no points
    /// and images of another form.
    Before, with points before_has_points:
    before_cellpool_fresh, before_cellpool_copy, before_cellpool_clear, before_cellpool_new, before_cellpool_point, before_cellpool_left,
    before_cellpool_right, before_cellpool_setleft, before_cellpool_setright, before_cellpool_setvalue,
    before_cellpool_value, before_cellpool_east, before_cellpool_north, before_cellpool_same, before_cellpool_collect, before_cellpool_collect_tally,
    before_cellpool_collect_stack, before_cellpool_worst_case, before_cellpool_collect_recursive, before_cellpool_save,
    before_cellpool_load, before_cellpool_check_image, before_cellpool_occupancy
}

#[cfg(c_baseline)]
extern "C" {
    fn baseline_mark_by_cases(
        words: *mut u32,
        len: usize,
        times: *mut u32,
        runs: *mut u32,
        cases: *mut u8,
        entered: *mut u32,
    ) -> u32;
    fn baseline_collect_stack_unchecked(
        words: *mut u32,
        len: usize,
        stack: *mut u32,
        stack_len: usize,
        kept: *mut u32,
        enough: *mut u32,
    ) -> u32;
}

#[cfg(c_baseline)]
impl PlainC {
    /// As `collect_stack` without checks: where the stack is full, link reversal does the work. Answers kept and enough.
    pub fn collect_stack_unchecked(words: &mut [u32], stack: &mut [u32]) -> Result<(u32, u32), u32> {
        // SAFETY: as above.
        results(UNSET, |[kept, enough]| unsafe {
            let (lent, length) = (stack.as_mut_ptr(), stack.len());
            baseline_collect_stack_unchecked(words.as_mut_ptr(), words.len(), lent, length, kept, enough)
        })
        .map(|[kept, enough]| (kept, enough))
    }

    /// Mark a well-formed pool by link reversal, one visit after the other, and tell the visits.
    pub fn mark_by_cases(words: &mut [u32]) -> Result<Marking, u32> {
        // Room for three visits of every cell, and each of them could go to a cell.
        let room = 3 * (words.len() / CELL);
        let (mut times, mut runs) = ([UNSET; CASES.len()], UNSET);
        let (mut cases, mut entered) = (vec![0u8; room], vec![UNSET; room]);
        // SAFETY: as above; a well-formed pool has at most a cell for four words, and three visits of each at most.
        done(unsafe {
            baseline_mark_by_cases(
                words.as_mut_ptr(),
                words.len(),
                times.as_mut_ptr(),
                &mut runs,
                cases.as_mut_ptr(),
                entered.as_mut_ptr(),
            )
        })?;
        cases.retain(|&number| number != 0);
        entered.retain(|&cell| cell != UNSET);
        let cases = cases.into_iter().map(|number| CASES[usize::from(number) - 1]).collect();
        Ok(Marking { times, runs, cases, entered })
    }
}
