//! Stored states that are hard to tell apart: they differ in one filter alone, or their records ask
//! the same question and have the same sets.

use filterbox_tests::builder::states;
use filterbox_tests::coverage::Coverage;
use filterbox_tests::examples::{one_bit_tests, EQUAL_RECORDS};
use filterbox_tests::rules::{read_list, words, Filter, MOST_FILTERS};
use filterbox_tests::runner::Runner;

use crate::support::build_in_slots;

pub fn run(runner: &mut Runner, coverage: &mut Coverage) {
    runner.check("equal_records_of_unequal_states", || equal_records(coverage));
    runner.check("states_that_differ_in_one_filter", || one_filter(coverage));
}

/// Builds a list with as many slots as it has states; the pairs of near states that it has.
fn near(filters: &[Filter], coverage: &mut Coverage) -> [u64; 3] {
    let states = states(filters, 1000).expect("few states");
    let mut here = Coverage::default();
    here.stored(&states);
    coverage.stored(&states);
    let built = build_in_slots(&words(filters), states.len(), coverage);
    assert_eq!(built.states() as usize, states.len());
    here.near
}

/// The list alone, and with other filters before it and behind it: the filters that differ are then
/// the last, the first two, or in the middle.
fn equal_records(coverage: &mut Coverage) {
    let list = read_list(&EQUAL_RECORDS).expect("well-formed");
    let [_, last, record] = near(&list, coverage);
    assert!(last > 0 && record > 0);
    for others in 1..=5 {
        for before in 0..=others {
            let mut filters = one_bit_tests(others);
            for filter in &mut filters {
                // A field that the list leaves alone.
                filter.tests[0].field = 13;
                filter.group += 10;
            }
            filters.splice(before..before, list.clone());
            assert!(near(&filters, coverage)[2] > 0);
        }
    }
}

/// Lists of up to 64 filters of which one alone is asked for, with empty filters around it.
fn one_filter(coverage: &mut Coverage) {
    for count in 2..=MOST_FILTERS {
        for asked in [0, count / 2, count - 1] {
            let mut filters: Vec<Filter> = one_bit_tests(count);
            for (i, filter) in filters.iter_mut().enumerate() {
                if i != asked {
                    filter.tests.clear();
                }
            }
            let [first, last, _] = near(&filters, coverage);
            assert_eq!((first > 0, last > 0), (asked == 0, asked == count - 1));
        }
    }
}
