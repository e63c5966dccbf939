//! Rooms of every size: what is lent, what is needed, and the words around them.

use filterbox_tests::builder::RECORD_WORDS;
use filterbox_tests::coverage::Coverage;
use filterbox_tests::examples::{behind_impossible, one_bit_tests, ECHO};
use filterbox_tests::library::library;
use filterbox_tests::rules::{words, MOST_FILTERS};
use filterbox_tests::runner::Runner;

use crate::support::build;

/// The largest room tried in each of its sizes.
const SLOTS: usize = 300;

pub fn run(runner: &mut Runner, coverage: &mut Coverage) {
    runner.check("rooms_of_0_to_300_slots", || every_room(coverage));
    runner.check("scratch_of_every_size_about_a_slot", || scratch_sizes(coverage));
    runner.check("tables_of_0_to_200_words", || every_table(coverage));
}

/// In each room: lists of 1, 10 and 255 states, and where there are such lists, one with as many
/// states as slots and one with a state more.
fn every_room(coverage: &mut Coverage) {
    let slot_words = library().scratch_words();
    let tree = words(&one_bit_tests(7));
    for slots in 0..=SLOTS {
        let table = slots * RECORD_WORDS + slots % RECORD_WORDS;
        let scratch = slots * slot_words;
        let refusal = |list: &[u32], scratch, coverage: &mut Coverage| {
            build(list, table, scratch, coverage).built.refusal
        };
        assert_eq!(refusal(&ECHO, scratch, coverage), if slots < 10 { 11 } else { 0 });
        assert_eq!(refusal(&[], scratch + 3, coverage), if slots == 0 { 11 } else { 0 });
        if slots > 0 {
            assert_eq!(refusal(&ECHO, scratch - 1, coverage), 10);
            assert_eq!(refusal(&[], scratch - 1, coverage), 10);
            assert_eq!(refusal(&ECHO, 0, coverage), 10);
        }
        assert_eq!(refusal(&tree, scratch, coverage), if slots < 255 { 11 } else { 0 });
        if let Some((fits, too_many)) = lists_for(slots) {
            assert_eq!(refusal(&fits, scratch, coverage), 0);
            assert_eq!(refusal(&too_many, scratch + 1, coverage), 11);
        }
    }
}

/// Lists with as many states as slots and with one more, where such lists are at hand.
fn lists_for(slots: usize) -> Option<(Vec<u32>, Vec<u32>)> {
    let bits = ((slots + 1).ilog2() as usize).checked_sub(1)?;
    let more = slots + 1 - (2 << bits);
    // Filters that can never hold add a state each, as far as the list has room for them.
    let list = |more: usize| words(&behind_impossible(more, one_bit_tests(bits)));
    (more + 1 + bits <= MOST_FILTERS).then(|| (list(more), list(more + 1)))
}

fn scratch_sizes(coverage: &mut Coverage) {
    let slot_words = library().scratch_words();
    for slots in [1, 9, 10, 11] {
        let need = slots * slot_words;
        for scratch in [0, 1, need / 2, need - 1, need, need + 1, need + slot_words] {
            let built = build(&ECHO, slots * RECORD_WORDS, scratch, coverage).built;
            let should = if scratch < need {
                10
            } else if slots < 10 {
                11
            } else {
                0
            };
            assert_eq!(built.refusal, should, "{slots} slots, scratch {scratch}");
        }
    }
}

fn every_table(coverage: &mut Coverage) {
    let scratch = 30 * library().scratch_words();
    for table in 0..=200 {
        let built = build(&ECHO, table, scratch, coverage).built;
        assert_eq!(built.refusal, if table < 110 { 11 } else { 0 }, "{table} words");
    }
}
