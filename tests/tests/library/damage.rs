//! Damaged and foreign tables: classifying must give what the words say, or 13, and must end.

use filterbox_tests::builder::{record, records, Record, MOST_SLOTS, RECORD_WORDS};
use filterbox_tests::coverage::Coverage;
use filterbox_tests::examples::{ECHO, ECHO_RECORDS};
use filterbox_tests::fields::{full, FIELDS};
use filterbox_tests::frames::{echo_request, hand_made, towards, Frame};
use filterbox_tests::lists::{list, Style};
use filterbox_tests::random::Random;
use filterbox_tests::rules::{words, Filter, Test};
use filterbox_tests::runner::Runner;
use filterbox_tests::walker::{self, Answer, DONE, REFUSED, STOPPED};

use crate::support::{build_in_slots, classify_noted, Outcome};

const SEED: u64 = 0xDA4A6E;

pub fn run(runner: &mut Runner, coverage: &mut Coverage) {
    runner.check("when_a_record_is_checked", || record_checks(coverage));
    runner.check("each_number_of_states", || numbers_of_states(coverage));
    runner.check("each_word_of_the_example_damaged", || example_damaged(coverage));
    runner.check("words_of_random_tables_damaged", || random_damaged(coverage));
    runner.check("foreign_tables", || foreign_tables(coverage));
    runner.check("tables_of_any_words", || any_words(coverage));
    runner.check("a_walk_in_a_circle_ends_with_its_allowance", || circle(coverage));
    runner.check("classifying_writes_nothing_lent", || writes_nothing(coverage));
}

const DAMAGED: Answer = Answer { ended: REFUSED, refusal: 13, sure: 0, out: 0, asked: 0, cut: 0 };

/// The decided reading of when a record is checked and what of it is looked at.
fn record_checks(coverage: &mut Coverage) {
    let frame = echo_request(1);
    let mut answer = |table: &[u32], states, allowance| {
        classify_noted(&frame, table, states, allowance, coverage)
    };
    // A damaged record 0 is refused before any question.
    assert_eq!(answer(&record([5, 0, 0, 0], [0; 3], 1, 2), 1, 0), DAMAGED);
    assert_eq!(answer(&record([1, 14, 0, 0], [0; 3], 1, 2), 1, 0), DAMAGED);
    // Kind 0 is done at allowance 0, whatever its field.
    let done = Answer { ended: DONE, refusal: 0, sure: 1, out: 2, asked: 0, cut: 0 };
    assert_eq!(answer(&record([0, 99, 7, 7], [99; 3], 1, 2), 1, 0), done);
    // A next state out of range counts only where a way is taken.
    let circle = record([1, 13, 255, 0], [1; 3], 1, 2);
    let stopped = Answer { ended: STOPPED, refusal: 0, sure: 1, out: 2, asked: 0, cut: 0 };
    assert_eq!(answer(&circle, 1, 0), stopped);
    assert_eq!(answer(&circle, 1, 1), DAMAGED);
    assert_eq!(answer(&circle, 1, u32::MAX), DAMAGED);
    // Only the next state that is chosen is looked at.
    let first = record([1, 13, 255, 0], [1, 9, 9], 0, 0);
    let chosen = [first, record([0; 4], [0; 3], 4, 8)].concat();
    let done = Answer { ended: DONE, refusal: 0, sure: 4, out: 8, asked: 1, cut: 0 };
    assert_eq!(answer(&chosen, 2, 1), done);
    // The record behind the last allowed question is checked as well.
    let behind = [first, record([7, 0, 0, 0], [0; 3], 4, 8)].concat();
    assert_eq!(answer(&behind, 2, 1), DAMAGED);
    assert_eq!(answer(&behind, 2, 0).ended, STOPPED);
    // Kinds 3 and 4 don't look at the mask, and a value above full is no damage.
    let ranges = [
        record([3, 13, 0xFF00, 300], [1, 0, 0], 0, 0),
        record([4, 13, 1, 300], [0, 2, 0], 0, 0),
        [0; RECORD_WORDS],
    ];
    assert_eq!(answer(&ranges.concat(), 3, 9).asked, 2);
}

fn numbers_of_states(coverage: &mut Coverage) {
    let built = build_in_slots(&ECHO, 13, coverage);
    let frame = echo_request(1);
    let odd = [built.table.clone(), vec![0; 5]].concat();
    for table in [&built.table[..], &odd[..], &built.table[..110], &built.table[..109]] {
        let slots = table.len() / RECORD_WORDS;
        // So many records have fewer words than the table if their number is taken in 32 bits.
        let wraps = u32::MAX / RECORD_WORDS as u32 + 1;
        for states in (0..20).chain([u32::MAX - 1, u32::MAX, 0x8000_0000, wraps]) {
            for allowance in [0, 1, 2, 3, u32::MAX] {
                let answer = classify_noted(&frame, table, states, allowance, coverage);
                if states == 0 || states as usize > slots {
                    assert_eq!(answer, DAMAGED, "{states} states");
                }
            }
        }
    }
    assert_eq!(classify_noted(&frame, &[], 0, 0, coverage), DAMAGED);
    assert_eq!(classify_noted(&frame, &[], 1, 0, coverage), DAMAGED);
    assert_eq!(classify_noted(&frame, &[0; 10], 1, 0, coverage), DAMAGED);
    // More words than 4,096 slots take make no more slots.
    let large = vec![0; (MOST_SLOTS + 20) * RECORD_WORDS];
    for (states, ended) in [(4095, DONE), (4096, DONE), (4097, REFUSED), (4116, REFUSED)] {
        assert_eq!(classify_noted(&frame, &large, states, 0, coverage).ended, ended);
    }
}

/// Words that may change what a record says, or break it.
fn replacements(states: u32, random: &mut Random) -> [u32; 12] {
    let below = random.below(states as usize) as u32;
    let any = random.word();
    [0, 1, 2, 3, 4, 5, 13, 14, states, below, u32::MAX, any]
}

/// A walk through one frame can visit a state twice only in a circle, so that more questions than
/// states mean that it never ends. Those are tried with allowances that end them.
fn allowances(frame: &Frame, table: &[u32], states: u32) -> Vec<u32> {
    let mut some = vec![0, 1, 2, 3, 7, 40];
    let enough = walker::classify(&frame.bytes, frame.port, table, states, states.min(5000));
    if enough.ended != STOPPED {
        some.push(u32::MAX);
    }
    some
}

fn try_all(table: &[u32], states: u32, frames: &[Frame], coverage: &mut Coverage) {
    for frame in frames {
        coverage.frame(frame);
        for allowance in allowances(frame, table, states) {
            classify_noted(frame, table, states, allowance, coverage);
        }
    }
}

fn example_damaged(coverage: &mut Coverage) {
    let random = &mut Random::new(SEED);
    let mut frames: Vec<Frame> = [1, 2].map(echo_request).into();
    for protocol in [0, 2, 17] {
        let mut frame = echo_request(1);
        frame.bytes[23] = protocol;
        frame.bytes[34] = 0;
        frames.push(frame);
    }
    frames.push(Frame { bytes: Vec::new(), port: 3 });
    let sound = ECHO_RECORDS.concat();
    for at in 0..sound.len() {
        for word in replacements(10, random) {
            let mut table = sound.clone();
            table[at] = word;
            try_all(&table, 10, &frames, coverage);
        }
    }
}

/// A built table, with frames towards its list.
fn random_table(random: &mut Random, coverage: &mut Coverage) -> (Outcome, Vec<Frame>) {
    loop {
        let style = random.pick(&[Style::Masks, Style::OneField, Style::FewFields]);
        let filters: Vec<Filter> = list(random, style);
        let Some(records) = records(&filters, 60) else { continue };
        let built = build_in_slots(&words(&filters), records.len() + 2, coverage);
        let frames = (0..6).map(|_| towards(random, &filters)).collect();
        return (built, frames);
    }
}

fn random_damaged(coverage: &mut Coverage) {
    for case in 0..600 {
        let random = &mut Random::case(SEED ^ 1, case);
        let (built, frames) = random_table(random, coverage);
        let states = built.states();
        for _ in 0..20 {
            let mut table = built.table.clone();
            for _ in 0..random.between(1, 3) {
                let at = random.below(table.len());
                let words = replacements(states, random);
                table[at] = random.pick(&words);
            }
            try_all(&table, states, &frames, coverage);
        }
        // Any number of states, with the sound records behind it.
        let claimed = random.below(states as usize + 3) as u32;
        try_all(&built.table, claimed, &frames, coverage);
    }
}

/// A record as nobody's builder would write it, mostly without damage.
pub fn foreign_record(random: &mut Random, states: u32) -> Record {
    let kind = if random.once_in(20) { random.below(7) } else { random.between(1, 4) } as u32;
    let kind = if random.once_in(5) { 0 } else { kind };
    let damaged = usize::from(random.once_in(15));
    let field = random.below(FIELDS + damaged) as u32;
    let all = if field < FIELDS as u32 { full(field) } else { u32::MAX };
    let mask = random.word() & random.pick(&[all, 0xFF, 0x0F, u32::MAX, 0]);
    let value = match random.below(4) {
        0 => random.word(),
        1 => random.word() & mask,
        2 => random.word() & all,
        _ => random.below(300) as u32,
    };
    let mut next =
        || if random.once_in(40) { states } else { random.below(states as usize) as u32 };
    let ways = [next(), next(), next()];
    record([kind, field, mask, value], ways, random.set(), random.set())
}

/// Frames whose fields are at or beside the values of a record's question, as far as that goes.
pub fn frames_for(random: &mut Random, table: &[u32]) -> Vec<Frame> {
    let tests: Vec<Test> = table
        .chunks_exact(RECORD_WORDS)
        .filter(|record| (1..=4).contains(&record[0]) && record[1] < FIELDS as u32)
        .map(|record| {
            let all = full(record[1]);
            let mask = if record[2] & all == 0 { all } else { record[2] & all };
            Test { kind: record[0], field: record[1], mask, value: record[3] & mask }
        })
        .collect();
    let filters = [Filter { group: 0, level: 0, tests }];
    (0..8).map(|_| towards(random, &filters)).collect()
}

fn foreign_tables(coverage: &mut Coverage) {
    for case in 0..6000 {
        let random = &mut Random::case(SEED ^ 2, case);
        let slots = random.between(1, 24) as u32;
        let states = random.between(1, slots as usize) as u32;
        let mut table: Vec<u32> = (0..slots).flat_map(|_| foreign_record(random, states)).collect();
        table.extend((0..random.below(RECORD_WORDS)).map(|_| random.word()));
        let frames = frames_for(random, &table);
        try_all(&table, states, &frames, coverage);
    }
}

fn any_words(coverage: &mut Coverage) {
    let edge: Vec<Frame> = hand_made().into_iter().map(|(_, frame)| frame).step_by(7).collect();
    for case in 0..2000 {
        let random = &mut Random::case(SEED ^ 3, case);
        let length = random.below(100);
        let small = random.once_in(2);
        let table: Vec<u32> = (0..length)
            .map(|_| if small { random.below(12) as u32 } else { random.word() })
            .collect();
        let states = random.below(length / RECORD_WORDS + 2) as u32;
        try_all(&table, states, &edge, coverage);
    }
}

fn circle(coverage: &mut Coverage) {
    // Every way leads back, so that each question is asked again.
    let table = record([4, 13, 0, 0], [0; 3], 3, 5);
    let frame = Frame { bytes: Vec::new(), port: 9 };
    for allowance in [0, 1, 2, 1000, 1_000_000] {
        let answer = classify_noted(&frame, &table, 1, allowance, coverage);
        let should =
            Answer { ended: STOPPED, refusal: 0, sure: 3, out: 5, asked: allowance, cut: 0 };
        assert_eq!(answer, should);
    }
}

fn writes_nothing(coverage: &mut Coverage) {
    for case in 0..300 {
        let random = &mut Random::case(SEED ^ 4, case);
        let (built, frames) = random_table(random, coverage);
        let before = built.table.clone();
        for frame in &frames {
            let bytes = frame.bytes.clone();
            for allowance in [0, 1, u32::MAX] {
                classify_noted(frame, &built.table, built.states(), allowance, coverage);
            }
            assert!(bytes == frame.bytes && before == built.table);
        }
    }
}
