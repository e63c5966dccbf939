//! Document 01's "Numbers to try", and lists whose states can be counted by hand.

use std::thread;

use filterbox_tests::builder::{Built, MOST_SCRATCH_WORDS, MOST_SLOTS, RECORD_WORDS};
use filterbox_tests::coverage::Coverage;
use filterbox_tests::examples::{
    behind_impossible, deepest, echo_in_one_group, empty_filters, ends_of_the_range, one_bit_tests,
    residue_cases, LeftOver, ResidueCase, ECHO, ECHO_RECORDS, WITHOUT_PLACES,
};
use filterbox_tests::fields::{full, FIELDS};
use filterbox_tests::frames::{compose, echo_request, hand_made, Frame, Layout};
use filterbox_tests::library::library;
use filterbox_tests::rules::{read_list, words, Filter};
use filterbox_tests::runner::Runner;
use filterbox_tests::sizes::{set_at, BUILD_STACK, OUT_AT, SURE_AT};
use filterbox_tests::walker::{Answer, DONE, STOPPED};

use crate::support::{build, build_in_slots, check_frame, classify_noted};

pub fn run(runner: &mut Runner, coverage: &mut Coverage) {
    runner.check("scratch_words_are_as_published", scratch_words);
    runner.check("the_example_has_its_ten_records", || ten_records(coverage));
    runner.check("109_words_are_refused_and_110_built", || words_109_and_110(coverage));
    runner.check("the_echo_request_at_each_allowance", || echo_allowances(coverage));
    runner.check("the_example_in_one_group", || one_group(coverage));
    runner.check("an_empty_list_has_one_state", || empty_list(coverage));
    runner.check("64_filters_pass_and_65_give_1", || filters_64_and_65(coverage));
    runner.check("residues_stand_in_the_table", || residues(coverage));
    runner.check("remaining_tests_count_without_places", || {
        let built = build_in_slots(&WITHOUT_PLACES, 20, coverage);
        assert_eq!(built.states(), 15);
    });
    runner.check("states_counted_by_hand", || counted_states(coverage));
    runner.check("4096_states_are_built_and_4097_refused", || most_states(coverage));
    runner.check("a_table_has_at_most_4096_slots", || beyond_the_slots(coverage));
    runner.check("the_deepest_list", || deepest_list(coverage));
    runner.check("the_deepest_list_on_the_published_stack", published_stack);
    runner.check("ranges_at_the_ends_of_each_field", || ends_of_ranges(coverage));
}

fn scratch_words() {
    assert!(library().scratch_words() <= MOST_SCRATCH_WORDS);
    assert_eq!(library().scratch_words(), 2048, "the number that docs/ publishes");
}

fn ten_records(coverage: &mut Coverage) {
    let built = build_in_slots(&ECHO, 16, coverage);
    assert_eq!(built.states(), 10);
    for (n, record) in ECHO_RECORDS.iter().enumerate() {
        assert_eq!(built.table[n * RECORD_WORDS..][..RECORD_WORDS], *record, "record {n}");
    }
}

fn words_109_and_110(coverage: &mut Coverage) {
    let scratch = 10 * library().scratch_words();
    let small = build(&ECHO, 109, scratch, coverage);
    assert_eq!((small.built.refusal, small.built.number), (11, 0));
    assert_eq!(small.table[..99], [0; 99]);
    let enough = build(&ECHO, 110, scratch, coverage);
    assert_eq!((enough.built.refusal, enough.built.number), (0, 10));
    assert_eq!(enough.table, ECHO_RECORDS.concat());
}

fn echo_allowances(coverage: &mut Coverage) {
    let built = build_in_slots(&ECHO, 10, coverage);
    let frame = echo_request(1);
    let expect = |ended, sure, out, asked| Answer { ended, refusal: 0, sure, out, asked, cut: 0 };
    for (allowance, should) in [
        (0, expect(STOPPED, 0, 0, 0)),
        (1, expect(STOPPED, 1, 2, 1)),
        (2, expect(DONE, 5, 2, 2)),
        (3, expect(DONE, 5, 2, 2)),
        (u32::MAX, expect(DONE, 5, 2, 2)),
    ] {
        let answer = classify_noted(&frame, &built.table, 10, allowance, coverage);
        assert_eq!(answer, should, "allowance {allowance}");
    }
}

fn one_group(coverage: &mut Coverage) {
    for (levels, alone) in [([3, 2, 1], 1), ([1, 2, 3], 4)] {
        let list = echo_in_one_group(levels);
        let built = build_in_slots(&list, 16, coverage);
        let frame = echo_request(1);
        let answer = classify_noted(&frame, &built.table, built.states(), u32::MAX, coverage);
        assert_eq!((answer.ended, answer.sure, answer.out), (DONE, alone, 7 & !alone));
        check_frame(&read_list(&list).expect("well-formed"), &frame, &built, coverage);
    }
}

fn empty_list(coverage: &mut Coverage) {
    let built = build_in_slots(&[], 3, coverage);
    assert_eq!(built.states(), 1);
    assert_eq!(built.table[..RECORD_WORDS], [0; RECORD_WORDS]);
    let answer = classify_noted(&echo_request(1), &built.table, 1, 0, coverage);
    assert_eq!(answer, Answer { ended: DONE, refusal: 0, sure: 0, out: 0, asked: 0, cut: 0 });
}

fn filters_64_and_65(coverage: &mut Coverage) {
    for (filters, sure) in
        [(31, [u32::MAX >> 1, 0]), (32, [u32::MAX, 0]), (33, [u32::MAX, 1]), (64, [u32::MAX; 2])]
    {
        let built = build_in_slots(&empty_filters(filters), 2, coverage);
        assert_eq!(built.states(), 1);
        assert_eq!(built.table[7..11], [sure[0], sure[1], 0, 0], "{filters} filters");
    }
    let refused = build_in_slots(&empty_filters(65), 2, coverage);
    assert_eq!((refused.built.refusal, refused.built.number), (1, 64));
    let one_word = [empty_filters(64), vec![0]].concat();
    let refused = build_in_slots(&one_word, 2, coverage);
    assert_eq!((refused.built.refusal, refused.built.number), (1, 64));
}

/// A list that asks the fact first and then, in another group, the test: what is left of the test
/// is read from the state behind "holds".
fn residues(coverage: &mut Coverage) {
    for case in residue_cases() {
        let alone = |group, test| Filter { group, level: 0, tests: vec![test] };
        let filters = [alone(0, case.fact), alone(1, case.test)];
        let built = build_in_slots(&words(&filters), 10, coverage);
        assert_eq!(built.table[..4], case.fact.words());
        let next = built.table[4] as usize;
        let record = &built.table[next * RECORD_WORDS..][..RECORD_WORDS];
        check_residue(&case, record);
    }
}

fn check_residue(case: &ResidueCase, record: &[u32]) {
    let text = format!("{:?} given {:?}: {record:?}", case.test, case.fact);
    let sets = (set_at(record, SURE_AT), set_at(record, OUT_AT));
    let mut asks = case.test;
    match case.left {
        LeftOver::True => return assert!(record[0] == 0 && sets == (3, 0), "{text}"),
        LeftOver::False => return assert!(record[0] == 0 && sets == (1, 2), "{text}"),
        LeftOver::Unchanged => {}
        LeftOver::Becomes { mask, value } => {
            asks.mask = mask;
            asks.value = value;
        }
    }
    assert!(record[..4] == asks.words() && sets == (1, 0), "{text}");
}

fn counted_states(coverage: &mut Coverage) {
    for count in 0..=9 {
        let states = (2 << count) - 1;
        let list = words(&one_bit_tests(count));
        assert_eq!(build_in_slots(&list, states, coverage).states() as usize, states);
        let refused = build_in_slots(&list, states - 1, coverage);
        assert_eq!((refused.built.refusal, refused.built.number), (11, 0));
    }
    for more in 1..=4 {
        let list = words(&behind_impossible(more, one_bit_tests(3)));
        assert_eq!(build_in_slots(&list, 20, coverage).states() as usize, 15 + more);
    }
}

fn most_states(coverage: &mut Coverage) {
    let list = words(&one_bit_tests(11));
    assert_eq!(build_in_slots(&list, 4095, coverage).states(), 4095);
    assert_eq!(build_in_slots(&list, 4094, coverage).built.refusal, 11);
    let list = words(&behind_impossible(1, one_bit_tests(11)));
    let built = build_in_slots(&list, MOST_SLOTS, coverage);
    assert_eq!(built.states(), 4096);
    let answer = classify_noted(&echo_request(1), &built.table, 4096, u32::MAX, coverage);
    assert_eq!((answer.ended, answer.sure), (DONE, 2));
    let list = words(&behind_impossible(2, one_bit_tests(11)));
    assert_eq!(build_in_slots(&list, MOST_SLOTS, coverage).built.refusal, 11);
    let list = words(&one_bit_tests(12));
    assert_eq!(build_in_slots(&list, MOST_SLOTS, coverage).built.refusal, 11);
}

/// More words than 4,096 slots take: the rest is no slot, needs no scratch and stays as it was.
fn beyond_the_slots(coverage: &mut Coverage) {
    let scratch = MOST_SLOTS * library().scratch_words();
    let table = MOST_SLOTS * RECORD_WORDS + 500;
    assert_eq!(build(&ECHO, table, scratch, coverage).states(), 10);
    assert_eq!(build(&ECHO, table, scratch - 1, coverage).built.refusal, 10);
    let large = words(&behind_impossible(2, one_bit_tests(11)));
    assert_eq!(build(&large, table, scratch, coverage).built.refusal, 11);
}

fn deepest_list(coverage: &mut Coverage) {
    let filters = deepest();
    let built = build_in_slots(&words(&filters), 700, coverage);
    assert_eq!(built.states(), 640);
    for port in [60_000, 0, 7, 8, 100, 255, 256, 511] {
        let mut wishes = [None; FIELDS];
        wishes[9] = Some(port);
        let frame = compose(&wishes, &Layout::plain(20));
        check_frame(&filters, &frame, &built, coverage);
    }
    check_frame(&filters, &Frame { bytes: Vec::new(), port: 0 }, &built, coverage);
}

/// On a thread that has no more stack than the header asks. A build that takes more ends the run.
fn published_stack() {
    let build = || {
        let mut table = vec![0; 640 * RECORD_WORDS];
        let mut scratch = vec![0; 640 * library().scratch_words()];
        library().build(&words(&deepest()), &mut table, &mut scratch)
    };
    let thread = thread::Builder::new().stack_size(BUILD_STACK).spawn(build).expect("a thread");
    assert_eq!(thread.join().expect("no panic"), Built { refusal: 0, number: 640 });
}

fn ends_of_ranges(coverage: &mut Coverage) {
    for field in 0..FIELDS as u32 {
        let filters = ends_of_the_range(field, full(field));
        let built = build_in_slots(&words(&filters), 40, coverage);
        for (_, frame) in hand_made() {
            check_frame(&filters, &frame, &built, coverage);
        }
    }
}
