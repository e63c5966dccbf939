//! Faulty lists: each fault in each place, with a second one behind it; lists cut at every word.

use filterbox_tests::builder::RECORD_WORDS;
use filterbox_tests::coverage::Coverage;
use filterbox_tests::examples::{empty_filters, test, ECHO};
use filterbox_tests::fields::{full, FIELDS};
use filterbox_tests::library::library;
use filterbox_tests::lists::{self, places, style, Style};
use filterbox_tests::random::Random;
use filterbox_tests::rules::{
    words, Filter, AT_LEAST, AT_MOST, DIFFERS, EQUAL, FILTER_WORDS, MOST_FILTERS, TEST_WORDS,
};
use filterbox_tests::runner::Runner;

use crate::support::{build, build_in_slots};

const SEED: u64 = 0xFA17;
const RANDOM_LISTS: usize = 20_000;
/// Few slots: a list that is refused never looks at them.
const SLOTS: usize = 4;

pub fn run(runner: &mut Runner, coverage: &mut Coverage) {
    runner.check("each_fault_in_each_place", || each_fault(coverage));
    runner.check("each_fault_with_each_behind_it", || each_pair(coverage));
    runner.check("faults_of_one_test_come_in_order", || one_test(coverage));
    runner.check("lists_cut_at_every_word", || cut_lists(coverage));
    runner.check("each_field_at_its_greatest_number", || field_limits(coverage));
    runner.check("random_faulty_lists", || random_lists(coverage));
}

/// Damage that gives one refusal, to the words of a list with a filter at `at`.
#[derive(Clone, Copy, Debug)]
struct Fault {
    refusal: u32,
    /// The word of the filter that is overwritten, counted from its beginning; words of tests from
    /// the beginning of the test.
    word: usize,
    number: Number,
}

#[derive(Clone, Copy, Debug)]
enum Number {
    Word(u32),
    /// One above the greatest number of the test's field.
    AboveFull,
}

/// Faults of a filter's first three words.
const HEAD_FAULTS: [Fault; 8] = [
    Fault { refusal: 3, word: 0, number: Number::Word(256) },
    Fault { refusal: 3, word: 0, number: Number::Word(u32::MAX) },
    Fault { refusal: 3, word: 1, number: Number::Word(256) },
    Fault { refusal: 3, word: 1, number: Number::Word(0x8000_0000) },
    Fault { refusal: 4, word: 2, number: Number::Word(9) },
    Fault { refusal: 4, word: 2, number: Number::Word(256) },
    Fault { refusal: 4, word: 2, number: Number::Word(0x4000_0001) },
    Fault { refusal: 4, word: 2, number: Number::Word(u32::MAX) },
];

/// Faults of a masked test's four words; the test has a mask that is neither 0 nor full, and the
/// field is narrower than 32 bits.
const TEST_FAULTS: [Fault; 11] = [
    Fault { refusal: 5, word: 0, number: Number::Word(0) },
    Fault { refusal: 5, word: 0, number: Number::Word(5) },
    Fault { refusal: 5, word: 0, number: Number::Word(u32::MAX) },
    Fault { refusal: 6, word: 1, number: Number::Word(14) },
    Fault { refusal: 6, word: 1, number: Number::Word(u32::MAX) },
    Fault { refusal: 7, word: 2, number: Number::Word(0) },
    Fault { refusal: 8, word: 2, number: Number::AboveFull },
    Fault { refusal: 8, word: 2, number: Number::Word(u32::MAX) },
    Fault { refusal: 8, word: 3, number: Number::AboveFull },
    Fault { refusal: 8, word: 3, number: Number::Word(u32::MAX) },
    Fault { refusal: 9, word: 3, number: Number::Word(0x80) },
];

/// A well-formed list to damage: masked tests on narrow fields, with bit 0x80 outside the masks.
fn sound_list(filters: usize, tests: usize) -> Vec<Filter> {
    let fields: Vec<u32> = (0..FIELDS as u32).filter(|&field| field != 6 && field != 7).collect();
    (0..filters)
        .map(|i| Filter {
            group: 1 + (i % 3) as u32,
            level: (i % 2) as u32,
            tests: (0..tests)
                .map(|j| test([EQUAL, DIFFERS][(i + j) % 2], fields[(3 * i + j) % 12], 0x13, 0x11))
                .collect(),
        })
        .collect()
}

/// Each fault in each place, as (place of the word, the word, refusal, filter, how early it is
/// found). What is found earlier wins.
fn all_faults(filters: &[Filter]) -> Vec<Placed> {
    let mut placed = Vec::new();
    for (number, (filter, &at)) in filters.iter().zip(&places(filters)).enumerate() {
        for fault in HEAD_FAULTS {
            placed.push(place(fault, at, number, 0, 0));
        }
        for (i, test) in filter.tests.iter().enumerate() {
            let at = at + FILTER_WORDS + TEST_WORDS * i;
            for fault in TEST_FAULTS {
                placed.push(place(fault, at, number, 1 + i, test.field));
            }
        }
    }
    placed
}

#[derive(Clone, Copy, Debug)]
struct Placed {
    at: usize,
    word: u32,
    refusal: u32,
    filter: usize,
    /// Filter, part of the filter, refusal: the order in which faults are found.
    order: (usize, usize, u32),
}

fn place(fault: Fault, at: usize, filter: usize, part: usize, field: u32) -> Placed {
    let word = match fault.number {
        Number::Word(word) => word,
        Number::AboveFull => full(field) + 1,
    };
    let order = (filter, part, fault.refusal);
    Placed { at: at + fault.word, word, refusal: fault.refusal, filter, order }
}

/// A fault comes before what is wrong with the room: too little scratch, or no slot at all.
fn refused(list: &[u32], should: &Placed, coverage: &mut Coverage) {
    let expect = (should.refusal, should.filter as u32);
    let enough = build_in_slots(list, SLOTS, coverage).built;
    let short = build(list, SLOTS * RECORD_WORDS, 0, coverage).built;
    let none = build(list, 0, 0, coverage).built;
    for built in [enough, short, none] {
        assert_eq!((built.refusal, built.number), expect, "{should:?} in {list:?}");
    }
}

fn each_fault(coverage: &mut Coverage) {
    for (filters, tests) in [(1, 1), (3, 2), (MOST_FILTERS, 1), (MOST_FILTERS, 8)] {
        let sound = sound_list(filters, tests);
        let list = words(&sound);
        for fault in all_faults(&sound) {
            let mut damaged = list.clone();
            damaged[fault.at] = fault.word;
            refused(&damaged, &fault, coverage);
        }
        too_long_and_too_short(&sound, coverage);
    }
}

/// Faults 1 and 2 of a list with each other fault before them.
fn too_long_and_too_short(sound: &[Filter], coverage: &mut Coverage) {
    let list = words(sound);
    let more = [list.clone(), empty_filters(MOST_FILTERS - sound.len()), vec![0]].concat();
    let built = build_in_slots(&more, SLOTS, coverage).built;
    assert_eq!((built.refusal, built.number), (1, MOST_FILTERS as u32));
    let short = &list[..list.len() - 1];
    let built = build_in_slots(short, SLOTS, coverage).built;
    assert_eq!((built.refusal, built.number), (2, sound.len() as u32 - 1));
    for fault in all_faults(sound) {
        let mut damaged = more.clone();
        damaged[fault.at] = fault.word;
        refused(&damaged, &fault, coverage);
        // The tests of the last filter are cut before any of them is looked at.
        let mut damaged = short.to_vec();
        if fault.at < damaged.len() {
            damaged[fault.at] = fault.word;
            let cut = fault.filter + 1 == sound.len() && fault.refusal > 4;
            let should = Placed { refusal: if cut { 2 } else { fault.refusal }, ..fault };
            refused(&damaged, &should, coverage);
        }
    }
}

fn each_pair(coverage: &mut Coverage) {
    let sound = sound_list(3, 2);
    let list = words(&sound);
    let faults = all_faults(&sound);
    for first in &faults {
        for second in faults.iter().filter(|second| second.at != first.at) {
            // One fault can undo or hide another of the same test: those are tried by themselves.
            if (first.order.0, first.order.1) == (second.order.0, second.order.1) {
                continue;
            }
            let mut damaged = list.clone();
            damaged[first.at] = first.word;
            damaged[second.at] = second.word;
            let earlier = if first.order < second.order { first } else { second };
            refused(&damaged, earlier, coverage);
        }
    }
}

/// All faults of one test or of one filter's first words at once; the least number wins as long as
/// it is there.
fn one_test(coverage: &mut Coverage) {
    for kind in [EQUAL, DIFFERS] {
        let cases: [([u32; 4], u32); 7] = [
            ([0, 14, 0, u32::MAX], 5),
            ([5, 99, 300, 301], 5),
            ([kind, 14, 0, 7], 6),
            ([kind, 14, 300, 301], 6),
            ([kind, 13, 0, 256], 7),
            ([kind, 13, 256, 1], 8),
            ([kind, 13, 254, 1], 9),
        ];
        one_test_cases(&cases, coverage);
    }
    for kind in [AT_MOST, AT_LEAST] {
        let cases: [([u32; 4], u32); 4] = [
            ([kind, 14, 1, u32::MAX], 6),
            ([kind, 13, 1, 256], 7),
            ([kind, 13, 0x100, 0], 7),
            ([kind, 13, 0, 256], 8),
        ];
        one_test_cases(&cases, coverage);
    }
    let heads: [([u32; 3], u32); 4] =
        [([256, 0, 9], 3), ([0, 256, 9], 3), ([256, 256, 0], 3), ([0, 0, 9], 4)];
    for (head, refusal) in heads {
        let built = build_in_slots(&head, SLOTS, coverage).built;
        assert_eq!((built.refusal, built.number), (refusal, 0), "{head:?}");
    }
}

fn one_test_cases(cases: &[([u32; 4], u32)], coverage: &mut Coverage) {
    for (test, refusal) in cases {
        for before in [0, 1, 5, 31, 32, 63] {
            let list = [empty_filters(before), vec![1, 1, 1], test.to_vec()].concat();
            let built = build_in_slots(&list, SLOTS, coverage).built;
            assert_eq!((built.refusal, built.number), (*refusal, before as u32), "{list:?}");
        }
    }
}

fn cut_lists(coverage: &mut Coverage) {
    let mut lists = vec![sound_list(MOST_FILTERS, 8), sound_list(5, 3), sound_list(64, 0)];
    for case in 0..40 {
        lists.push(lists::list(&mut Random::case(SEED, case), Style::Wild));
    }
    for filters in lists {
        let list = words(&filters);
        let beginnings = places(&filters);
        for cut in 0..list.len() {
            let built = build_in_slots(&list[..cut], SLOTS, coverage).built;
            if beginnings.contains(&cut) {
                assert!(built.refusal == 0 || built.refusal == 11, "cut {cut}: {built:?}");
            } else {
                let inside = beginnings.iter().filter(|&&at| at < cut).count() - 1;
                assert_eq!((built.refusal, built.number), (2, inside as u32), "cut {cut}");
            }
        }
    }
    for cut in 0..=ECHO.len() {
        build_in_slots(&ECHO[..cut], 16, coverage);
    }
}

/// The greatest mask and value of each field pass, one more is refused; a 32-bit field has no more.
fn field_limits(coverage: &mut Coverage) {
    for field in 0..FIELDS as u32 {
        let all = full(field);
        for (kind, mask) in [(EQUAL, all), (DIFFERS, all), (AT_MOST, 0), (AT_LEAST, 0)] {
            let list = [0, 0, 1, kind, field, mask, all];
            assert_eq!(build_in_slots(&list, SLOTS, coverage).built.refusal, 0, "{list:?}");
            if all == u32::MAX {
                continue;
            }
            let above = [0, 0, 1, kind, field, mask, all + 1];
            assert_eq!(build_in_slots(&above, SLOTS, coverage).built.refusal, 8, "{above:?}");
            if mask != 0 {
                let above = [0, 0, 1, kind, field, all + 1, 0];
                assert_eq!(build_in_slots(&above, SLOTS, coverage).built.refusal, 8, "{above:?}");
            }
        }
    }
}

fn random_lists(coverage: &mut Coverage) {
    for case in 0..RANDOM_LISTS {
        let random = &mut Random::case(SEED ^ 1, case as u64);
        let list = lists::faulty(random, style(case, RANDOM_LISTS));
        let slots = random.between(0, 30);
        let need = slots * library().scratch_words();
        let scratch = random.pick(&[need, need, need.saturating_sub(1), need / 2, 0]);
        build(&list, slots * RECORD_WORDS, scratch, coverage);
    }
}
