//! Random lists and frames: every word of the build, and every frame at every allowance.

use filterbox_tests::builder::{states, RECORD_WORDS};
use filterbox_tests::cases::RANDOM_LISTS;
use filterbox_tests::coverage::Coverage;
use filterbox_tests::frames::towards;
use filterbox_tests::library::library;
use filterbox_tests::lists::{list, style};
use filterbox_tests::random::Random;
use filterbox_tests::rules::{words, Filter};
use filterbox_tests::runner::Runner;

use crate::support::{build, check_frame, Outcome};

const SEED: u64 = 0x5EED_0000_0009;
const FRAMES_A_LIST: usize = 10;
/// Lists with more states are only tried for refusal 11.
const SLOTS: usize = 300;

pub fn run(runner: &mut Runner, coverage: &mut Coverage) {
    // Masked and overlapping rules on one field come first.
    let (lists, parts) = (RANDOM_LISTS.count(), 8);
    for part in 0..parts {
        let cases = part * lists / parts..(part + 1) * lists / parts;
        let style = style(cases.start, lists);
        runner.check(&format!("random_lists_{part}_from_{style:?}").to_lowercase(), || {
            for case in cases {
                one_case(case, lists, coverage);
            }
        });
    }
}

fn one_case(case: usize, lists: usize, coverage: &mut Coverage) {
    let random = &mut Random::case(SEED, case as u64);
    let filters = list(random, style(case, lists));
    coverage.pairs(&filters);
    let Some(built) = build_case(random, &filters, coverage) else { return };
    for _ in 0..FRAMES_A_LIST {
        let frame = towards(random, &filters);
        check_frame(&filters, &frame, &built, coverage);
    }
}

/// Builds a list in a room that is large enough, and some also in one that lacks a state or a word
/// of scratch. None where it has too many states.
fn build_case(random: &mut Random, filters: &[Filter], coverage: &mut Coverage) -> Option<Outcome> {
    let list = words(filters);
    let slot_words = library().scratch_words();
    let room = |slots: usize, odd: usize| (slots * RECORD_WORDS + odd, slots * slot_words);
    let Some(states) = states(filters, SLOTS) else {
        let (table, scratch) = room(random.between(SLOTS - 50, SLOTS), random.below(RECORD_WORDS));
        assert_eq!(build(&list, table, scratch, coverage).built.refusal, 11);
        return None;
    };
    coverage.stored(&states);
    let states = states.len();
    if random.once_in(3) {
        let (table, scratch) = room(states - 1, random.below(RECORD_WORDS));
        assert_eq!(build(&list, table, scratch, coverage).built.refusal, 11);
    }
    if random.once_in(3) {
        let (table, scratch) = room(states, random.below(RECORD_WORDS));
        assert_eq!(build(&list, table, scratch - 1, coverage).built.refusal, 10);
    }
    let (table, scratch) = room(states + random.pick(&[0, 0, 1, 7]), random.below(RECORD_WORDS));
    Some(build(&list, table, scratch + random.below(5), coverage))
}
