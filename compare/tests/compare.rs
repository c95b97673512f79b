//! Every function against the model, on random inputs with a fixed seed.
//! COMPARE_SEED sets another seed, COMPARE_ROUNDS a multiple of the rounds.

mod common;

use cellpool_compare::baseline::PlainRust;
use cellpool_compare::checks::{self, Comparison};
use cellpool_compare::generate;
use cellpool_compare::guard::Guarded;
use cellpool_compare::model::Pool;
use cellpool_compare::random::{rounds, seed, Random};
use cellpool_compare::refusal::SIZE;
use cellpool_compare::Interface;
use common::implementations;

fn on_all(comparison: Comparison) {
    let pool = Guarded::new(implementations());
    let outcome = comparison.on(&pool);
    let odd = pool.odd();
    if let Err(text) = outcome {
        panic!("{}: {text}", odd.unwrap_or("every implementation"));
    }
    assert_eq!(odd, None, "this implementation does not as the one before it");
}

#[test]
fn lists_of_calls_leave_the_words_of_the_model() {
    on_all(checks::CALL_LISTS);
}

#[test]
fn calls_on_any_words_answer_as_the_model() {
    on_all(checks::ANY_WORDS);
}

#[test]
fn lists_of_calls_answer_as_the_reference_model_exactly_where_the_limits_are_not_told_apart() {
    on_all(checks::REFERENCE);
}

#[test]
fn every_form_of_collect_on_any_words() {
    on_all(checks::COLLECTIONS);
}

#[test]
fn graphs_of_known_shape_up_to_the_largest_pool() {
    on_all(checks::GRAPHS);
}

#[test]
fn saves_with_every_nearby_length() {
    on_all(checks::SAVES);
}

#[test]
fn images_complete_and_damaged() {
    on_all(checks::IMAGES);
}

#[test]
fn images_in_the_order_of_the_visits_are_saved_as_they_were_read() {
    on_all(checks::ROUND_TRIPS);
}

#[test]
fn images_are_equal_exactly_if_no_list_of_reads_tells_the_pools_apart() {
    on_all(checks::PLANS);
}

#[test]
fn images_of_the_form_before_points_are_refused() {
    on_all(checks::FORMER_IMAGES);
}

#[test]
fn numbers_of_every_form() {
    on_all(checks::NUMBERS);
}

#[test]
fn lengths_up_to_beyond_the_longest() {
    on_all(checks::LENGTHS);
}

#[test]
fn percentages_of_every_size() {
    on_all(checks::PERCENTAGES);
}

#[test]
fn every_small_pool() {
    on_all(checks::SMALL_POOLS);
}

#[test]
fn the_largest_pool_fills_exactly() {
    on_all(checks::LARGEST_POOL);
}

#[test]
fn every_function_at_every_size() {
    on_all(checks::SIZES);
}

#[test]
fn every_stack_length_just_checked_and_just_not() {
    on_all(checks::STACK_LENGTHS);
}

/// What the benchmark has beside the checks: a stack that is full is too short at once.
#[test]
fn without_checks_a_stack_is_enough_exactly_if_it_holds_every_entry() {
    type Collect = fn(&mut [u32], &mut [u32]) -> Result<(u32, u32), u32>;
    let collects: &[Collect] = &[
        PlainRust::collect_stack_unchecked,
        #[cfg(c_baseline)]
        cellpool_compare::pool::PlainC::collect_stack_unchecked,
    ];
    let mut random = Random::new(seed());
    let mut seen = [0, 0];
    for words in generate::well_formed_pools(&mut random, rounds(2_000)) {
        let mut collected = words.clone();
        let (kept, _) = PlainRust.collect(&mut collected).expect("the pool is well-formed");
        let needed = Pool::decode(&words).expect("the size is right").stack_needed();
        for (collect, length) in
            collects.iter().flat_map(|collect| [0, 1, needed / 2, needed].map(|length| (collect, length)))
        {
            let (mut found, mut stack) = (words.clone(), vec![7; length]);
            let enough = u32::from(length >= needed);
            assert_eq!(collect(&mut found, &mut stack), Ok((kept, enough)), "{length} words: {words:?}");
            assert_eq!((found == collected, stack), (true, vec![0; length]));
            seen[enough as usize] += 1;
        }
        // Refused, all stays.
        let mut other = words;
        other[0] += 1;
        let before = other.clone();
        for collect in collects {
            let mut stack = [7; 3];
            assert_eq!(collect(&mut other, &mut stack), Err(SIZE));
            assert_eq!((&other, stack), (&before, [7; 3]));
        }
    }
    assert!(seen.iter().all(|&count| count > 500), "{seen:?}");
}

#[test]
fn every_pool_of_few_cells_that_the_checks_tell_apart() {
    on_all(checks::CHECKED_POOLS);
}

#[test]
fn the_worst_case_of_every_size_takes_just_the_stack_words_and_the_checks_that_are_stated() {
    on_all(checks::WORST_CASES);
}

#[test]
fn every_length_of_a_lent_block() {
    on_all(checks::LENT_LENGTHS);
}

#[test]
fn nothing_depends_on_the_words_left_over_and_they_stay() {
    on_all(checks::LEFTOVERS);
}
