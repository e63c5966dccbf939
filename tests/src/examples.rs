//! Lists with known answers: document 01's example, and lists whose states can be counted by hand.

use crate::builder::Record;
use crate::rules::{Filter, Test, AT_LEAST, AT_MOST, DIFFERS, EQUAL, MOST_FILTERS, MOST_TESTS};

/// Document 01's example: echo request; echo reply with time to live 1; time to live 1.
pub const ECHO: [u32; 25] =
    [1, 0, 1, 1, 11, 255, 8, 2, 0, 2, 1, 11, 255, 0, 1, 4, 255, 1, 3, 0, 1, 1, 4, 255, 1];

/// The records that document 01 prints for it, with the two words more of document 02, P8.
pub const ECHO_RECORDS: [Record; 10] = [
    [1, 11, 255, 8, 1, 4, 8, 0, 0, 0, 0],
    [1, 4, 255, 1, 2, 3, 3, 1, 0, 2, 0],
    [0, 0, 0, 0, 0, 0, 0, 5, 0, 2, 0],
    [0, 0, 0, 0, 0, 0, 0, 1, 0, 6, 0],
    [1, 11, 255, 0, 5, 8, 8, 0, 0, 1, 0],
    [1, 4, 255, 1, 6, 7, 7, 0, 0, 1, 0],
    [0, 0, 0, 0, 0, 0, 0, 6, 0, 1, 0],
    [0, 0, 0, 0, 0, 0, 0, 0, 0, 7, 0],
    [1, 4, 255, 1, 9, 7, 7, 0, 0, 3, 0],
    [0, 0, 0, 0, 0, 0, 0, 4, 0, 3, 0],
];

/// The decided reading of "not by their place in the filter": 15 states, 16 if places counted.
pub const WITHOUT_PLACES: [u32; 33] = [
    1, 0, 2, 1, 13, 48, 16, 1, 4, 255, 1, 2, 0, 2, 1, 13, 48, 32, 1, 4, 255, 1, 3, 0, 2, 2, 13, 19,
    19, 2, 13, 35, 35,
];

/// Two states of this list ask the same question, have the same sets and differ in the last filter
/// alone: the first filter is out by its second test or by its first, and what is known of its first
/// test leaves one test more of the second filter or not.
pub const EQUAL_RECORDS: [u32; 22] =
    [1, 0, 2, 1, 6, 1, 1, 1, 7, 1, 1, 2, 0, 2, 1, 5, 255, 6, 2, 6, 3, 3];

/// A masked or a range test.
pub fn test(kind: u32, field: u32, mask: u32, value: u32) -> Test {
    Test { kind, field, mask, value }
}

/// The echo example with all filters in one group, at these levels.
pub fn echo_in_one_group(levels: [u32; 3]) -> Vec<u32> {
    let mut list = ECHO;
    for (at, level) in [0, 7, 18].into_iter().zip(levels) {
        list[at] = 1;
        list[at + 1] = level;
    }
    list.to_vec()
}

/// So many filters without tests, each in a group of its own.
pub fn empty_filters(count: usize) -> Vec<u32> {
    (0..count as u32).flat_map(|group| [group, 0, 0]).collect()
}

/// One-bit tests on the source address, from the 33rd on on the destination address, each in a group
/// of its own: the states are a full binary tree, 2^(n+1) - 1 of them. Where the field is absent,
/// every filter still asked about is out, as where all of its bits are 0.
pub fn one_bit_tests(count: usize) -> Vec<Filter> {
    let one_bit = |i: u32| test(EQUAL, 6 + i / 32, 1 << (i % 32), 1 << (i % 32));
    (0..count as u32).map(|i| Filter { group: i, level: 0, tests: vec![one_bit(i)] }).collect()
}

/// Before a list, filters that can never hold: each adds one state. Its first question puts it out
/// however it ends, and where the question holds, all others of them too.
pub fn behind_impossible(count: usize, list: Vec<Filter>) -> Vec<Filter> {
    let impossible = (0..count as u32).map(|i| Filter {
        group: 100 + i,
        level: 0,
        tests: vec![test(EQUAL, 13, 255, 2 * i), test(EQUAL, 13, 255, 2 * i + 1)],
    });
    impossible.chain(list).collect()
}

/// 64 filters of 8 tests with a path that asks all 512 of them. 640 states: one for each question,
/// one with all held, one for each filter that alone is out, and one for each but the last filter
/// from which on all are out.
pub fn deepest() -> Vec<Filter> {
    (0..MOST_FILTERS as u32)
        .map(|i| Filter {
            group: i,
            level: 0,
            tests: (0..MOST_TESTS).map(|j| test(DIFFERS, 9, 0xFFFF, i * MOST_TESTS + j)).collect(),
        })
        .collect()
}

/// Ranges that meet the ends of a field: "at most full" and "at least 0" cannot fail there.
pub fn ends_of_the_range(field: u32, full: u32) -> Vec<Filter> {
    let alone = |group, tests| Filter { group, level: 0, tests };
    vec![
        alone(0, vec![test(AT_MOST, field, 0, full)]),
        alone(1, vec![test(AT_LEAST, field, 0, 0)]),
        alone(2, vec![test(AT_LEAST, field, 0, full), test(AT_MOST, field, 0, full)]),
        alone(3, vec![test(AT_MOST, field, 0, 0), test(DIFFERS, field, full, full)]),
        alone(4, vec![test(EQUAL, field, full, full)]),
    ]
}

/// A residue of "Numbers to try": a fact and a test on an 8-bit field, and what is left.
pub struct ResidueCase {
    pub fact: Test,
    pub test: Test,
    pub left: LeftOver,
}

#[derive(Clone, Copy, PartialEq, Eq, Debug)]
pub enum LeftOver {
    True,
    False,
    Unchanged,
    Becomes { mask: u32, value: u32 },
}

/// The residues of "Numbers to try", marked and unmarked, on the box port.
pub fn residue_cases() -> Vec<ResidueCase> {
    use LeftOver::{Becomes, False, True, Unchanged};
    let t = |kind, mask, value| test(kind, 13, mask, value);
    let sevens = t(EQUAL, 0xF0, 0x70);
    let tens = t(EQUAL, 0xF0, 0x10);
    let cases = [
        (t(DIFFERS, 3, 1), t(EQUAL, 255, 5), False),
        (t(DIFFERS, 3, 0), t(EQUAL, 255, 5), Unchanged),
        (sevens, t(EQUAL, 255, 0x75), Becomes { mask: 0x0F, value: 5 }),
        (sevens, t(EQUAL, 255, 5), False),
        (sevens, t(DIFFERS, 255, 5), True),
        (sevens, t(AT_MOST, 0, 4), False),
        (sevens, t(AT_MOST, 0, 127), True),
        (sevens, t(AT_LEAST, 0, 112), True),
        (sevens, t(AT_LEAST, 0, 113), Unchanged),
        (sevens, t(AT_LEAST, 0, 128), False),
        (t(AT_LEAST, 0, 31), tens, Unchanged),
        (t(AT_LEAST, 0, 32), tens, False),
        // The decided reading: the lines are never cleverer than they stand.
        (t(DIFFERS, 255, 0), t(AT_LEAST, 0, 1), Unchanged),
        (t(AT_LEAST, 0, 9), t(AT_MOST, 0, 255), Unchanged),
        (t(AT_MOST, 0, 0), t(EQUAL, 255, 0), Unchanged),
    ];
    cases.into_iter().map(|(fact, test, left)| ResidueCase { fact, test, left }).collect()
}
