//! The lamp (document 02, P4): over tables of its list, damaged ones, tables of other lists and tables
//! with another order of questions. Built tables of random lists are asked in `support::check_frame`.

use filterbox_tests::brute::path;
use filterbox_tests::builder::{record, records, records_by, Pick, Record, State, RECORD_WORDS};
use filterbox_tests::coverage::Coverage;
use filterbox_tests::examples::{ECHO, ECHO_RECORDS};
use filterbox_tests::fields::read;
use filterbox_tests::frames::{echo_request, towards, Frame};
use filterbox_tests::lamp::Lamp;
use filterbox_tests::lists::{list, style, Style};
use filterbox_tests::random::Random;
use filterbox_tests::rules::{words, Filter, Test, AT_LEAST, AT_MOST};
use filterbox_tests::runner::Runner;
use filterbox_tests::scanner::match_set;
use filterbox_tests::sizes::{Set, MOST_FILTERS, MOST_TESTS};
use filterbox_tests::walker::MOST_FRAME;

use crate::support::lamp;

const SEED: u64 = 0x1A4B;
const LISTS: usize = 3000;
const REFUSED: Lamp = refused(13, 0);

pub fn run(runner: &mut Runner, coverage: &mut Coverage) {
    runner.check("the_lamp_on_the_example", example);
    runner.check("the_lamps_refusals_in_their_order", order);
    runner.check("the_lamp_checks_a_record_before_it_ends", checked_first);
    runner.check("a_mask_under_kinds_3_and_4_is_another_question", masks);
    runner.check("sets_and_final_words_are_not_looked_at", not_looked_at);
    runner.check("the_lamp_on_each_word_damaged", example_damaged);
    runner.check("the_lamp_on_random_tables_damaged", || random_damaged(coverage));
    runner.check("the_lamp_on_tables_of_other_lists", || other_lists(coverage));
    runner.check("the_lamp_on_other_orders_of_questions", || other_orders(coverage));
}

const fn refused(refusal: u32, filter: u32) -> Lamp {
    Lamp { refusal, filter, lit: 0, asked: 0 }
}

const fn shows(lit: u32, asked: u32) -> Lamp {
    Lamp { refusal: 0, filter: 0, lit, asked }
}

/// An ICMP packet of a type, with a time to live.
fn icmp(kind: u8, ttl: u32) -> Frame {
    let mut frame = echo_request(ttl);
    frame.bytes[34] = kind;
    frame
}

fn nothing() -> Frame {
    Frame { bytes: Vec::new(), port: 0 }
}

fn example() {
    let table = ECHO_RECORDS.concat();
    for (frame, should) in [
        // The type is known to be 8: filter 0 is held, whatever the time to live.
        (icmp(8, 1), shows(1, 1)),
        (icmp(8, 2), shows(1, 1)),
        (icmp(0, 1), shows(1, 3)),
        (icmp(0, 2), shows(0, 3)),
        (icmp(3, 1), shows(1, 3)),
        (icmp(3, 2), shows(0, 3)),
        (nothing(), shows(0, 2)),
    ] {
        assert_eq!(lamp(&ECHO, &frame, &table, 10), should, "{frame:?}");
    }
    // An empty list matches nothing, a filter without tests everything; both ask nothing.
    assert_eq!(lamp(&[], &nothing(), &[0; RECORD_WORDS], 1), shows(0, 0));
    assert_eq!(lamp(&[1, 0, 0], &nothing(), &[0; RECORD_WORDS], 1), shows(1, 0));
}

fn order() {
    let table = ECHO_RECORDS.concat();
    let faulty = [&ECHO[..], &[4, 256, 0]].concat();
    let long = Frame { bytes: vec![0; MOST_FRAME + 1], port: 0 };
    let longest = Frame { bytes: vec![0; MOST_FRAME], port: 0 };
    for (frame, states) in [(&long, 0), (&long, 10), (&longest, 0), (&longest, 10)] {
        assert_eq!(lamp(&faulty, frame, &table, states), refused(3, 3));
        assert_eq!(lamp(&ECHO[..9], frame, &table, states), refused(2, 1));
    }
    for states in [0, 1, 10, 11, u32::MAX] {
        assert_eq!(lamp(&ECHO, &long, &table, states), refused(12, 0));
    }
    for states in [0, 11, 4097, u32::MAX] {
        assert_eq!(lamp(&ECHO, &longest, &table, states), REFUSED, "{states} states");
    }
    assert_eq!(lamp(&ECHO, &longest, &table[..109], 10), REFUSED);
    assert_eq!(lamp(&ECHO, &longest, &table, 10), shows(0, 2));
    // A next number counts only where its way is taken.
    for states in 1..10 {
        let should = if states > 8 { shows(0, 2) } else { REFUSED };
        assert_eq!(lamp(&ECHO, &longest, &table, states), should, "{states} states");
    }
}

fn checked_first() {
    let frame = nothing();
    // Filter 0 is held at the start, and filter 1 still has a test to ask: record 0 must ask it.
    let list = [1, 0, 0, 2, 0, 1, 1, 13, 255, 7];
    let asks = record([1, 13, 255, 7], [9; 3], 0, 0);
    assert_eq!(lamp(&list, &frame, &asks, 1), shows(1, 0));
    for at in 0..4 {
        let mut other = asks;
        other[at] ^= 1;
        assert_eq!(lamp(&list, &frame, &other, 1), REFUSED, "word {at}");
    }
    // Where nothing is left to ask the record must be final, even if the lamp is lit.
    for (list, lit) in [(&[][..], 0), (&[1, 0, 0][..], 1)] {
        let ends = record([0, 99, 7, 7], [99; 3], 1, 2);
        assert_eq!(lamp(list, &frame, &ends, 1), shows(lit, 0));
        assert_eq!(lamp(list, &frame, &asks, 1), REFUSED);
        let damaged = record([5, 0, 0, 0], [0; 3], 0, 0);
        assert_eq!(lamp(list, &frame, &damaged, 1), REFUSED);
    }
}

fn masks() {
    for kind in [AT_MOST, AT_LEAST] {
        let list = [1, 0, 1, kind, 13, 0, 7];
        let end = [0; RECORD_WORDS];
        for mask in [0, 1, 255, u32::MAX] {
            let table = [record([kind, 13, mask, 7], [1, 2, 2], 0, 0), end, end].concat();
            let should = if mask == 0 { shows(1, 1) } else { REFUSED };
            assert_eq!(lamp(&list, &Frame { bytes: Vec::new(), port: 7 }, &table, 3), should);
        }
    }
}

fn not_looked_at() {
    let random = &mut Random::new(SEED);
    let frames = [icmp(8, 1), icmp(0, 1), icmp(0, 2), icmp(3, 1), icmp(3, 2), nothing()];
    for _ in 0..200 {
        let mut table = ECHO_RECORDS.concat();
        for record in table.chunks_exact_mut(RECORD_WORDS) {
            let from = if record[0] == 0 { 1 } else { 7 };
            record[from..].iter_mut().for_each(|word| *word = random.word());
        }
        for frame in &frames {
            let should = lamp(&ECHO, frame, &ECHO_RECORDS.concat(), 10);
            assert_eq!(lamp(&ECHO, frame, &table, 10), should, "{frame:?}");
        }
    }
}

/// Words that may change what a record says, or break it.
fn replacements(states: u32, random: &mut Random) -> [u32; 9] {
    [0, 1, 3, 4, 5, 14, states, random.below(states as usize) as u32, random.word()]
}

fn example_damaged() {
    let random = &mut Random::new(SEED ^ 1);
    let frames = [icmp(8, 1), icmp(0, 1), icmp(0, 2), icmp(3, 1), icmp(3, 2), nothing()];
    let sound = ECHO_RECORDS.concat();
    for at in 0..sound.len() {
        for word in replacements(10, random) {
            let mut table = sound.clone();
            table[at] = word;
            for frame in &frames {
                lamp(&ECHO, frame, &table, 10);
            }
        }
    }
}

/// A list with few states, and a frame towards it.
fn some_list(random: &mut Random, style: Style) -> Option<(Vec<Filter>, Frame)> {
    let filters = list(random, style);
    records(&filters, 60)?;
    let frame = towards(random, &filters);
    Some((filters, frame))
}

/// The sure set of a frame's path after so many questions.
fn sure_after(filters: &[Filter], frame: &Frame, asked: u32) -> Set {
    path(filters, &read(&frame.bytes, frame.port))[asked as usize].sure
}

/// Asks the lamp of a table that may not be the list's, and counts the answer. What is not refused is
/// what the list alone says, whatever the table is.
fn noted(filters: &[Filter], frame: &Frame, table: &[u32], states: u32, coverage: &mut Coverage) {
    let answer = lamp(&words(filters), frame, table, states);
    if answer.refusal == 0 {
        let lit = match_set(filters, &read(&frame.bytes, frame.port)) != 0;
        assert_eq!(answer.lit, u32::from(lit), "{filters:?} {frame:?}");
    }
    coverage.lamp(&answer, sure_after(filters, frame, answer.asked));
}

fn random_damaged(coverage: &mut Coverage) {
    for case in 0..LISTS {
        let random = &mut Random::case(SEED ^ 2, case as u64);
        let Some((filters, frame)) = some_list(random, style(case, LISTS)) else { continue };
        let sound = records(&filters, 60).expect("few states").concat();
        let states = (sound.len() / RECORD_WORDS) as u32;
        for _ in 0..10 {
            let mut table = sound.clone();
            for _ in 0..random.between(1, 3) {
                let at = random.below(table.len());
                let words = replacements(states, random);
                table[at] = random.pick(&words);
            }
            noted(&filters, &frame, &table, states, coverage);
        }
        let claimed = random.below(states as usize + 3) as u32;
        lamp(&words(&filters), &frame, &sound, claimed);
    }
}

fn other_lists(coverage: &mut Coverage) {
    for case in 0..LISTS {
        let random = &mut Random::case(SEED ^ 3, case as u64);
        let style = random.pick(&[Style::OneField, Style::FewFields]);
        let Some((filters, frame)) = some_list(random, style) else { continue };
        let Some((mut others, _)) = some_list(random, style) else { continue };
        // A list that begins as the other does asks the same at first.
        if let (Some(first), Some(other)) = (filters.first(), others.first_mut()) {
            other.tests = first.tests.clone();
        }
        let Some(table) = records(&others, 60) else { continue };
        noted(&filters, &frame, &table.concat(), table.len() as u32, coverage);
    }
}

/// The last remaining test of the first filter that has any.
fn last_test(state: &State) -> Option<Test> {
    state.iter().flatten().find_map(|tests| tests.last().copied())
}

/// The first remaining test of the last filter that has any.
fn last_filter(state: &State) -> Option<Test> {
    state.iter().rev().flatten().find_map(|tests| tests.first().copied())
}

/// A dealer's table gives what it gives up to the first question that is not the list's.
fn other_orders(coverage: &mut Coverage) {
    let mut met = [0; 2];
    for case in 0..LISTS {
        let random = &mut Random::case(SEED ^ 4, case as u64);
        let Some((filters, frame)) = some_list(random, style(case, LISTS)) else { continue };
        for pick in [last_test as Pick, last_filter] {
            let Some(table) = records_by(&filters, 60, pick) else { continue };
            let points = path(&filters, &read(&frame.bytes, frame.port));
            let end = points.iter().position(|point| point.held || point.asked.is_none());
            let asks = questions(&table, &filters, &frame);
            let same = (0..=end.expect("a path ends"))
                .all(|k| asks.get(k) == points[k].asked.map(|(test, _)| test).as_ref());
            let answer = lamp(&words(&filters), &frame, &table.concat(), table.len() as u32);
            assert_eq!(answer.refusal, if same { 0 } else { 13 }, "{filters:?} {frame:?}");
            met[usize::from(same)] += 1;
            coverage.lamp(&answer, sure_after(&filters, &frame, answer.asked));
        }
    }
    assert!(met.iter().all(|&count| count > LISTS / 10), "{met:?}");
}

/// The questions that a table asks of a frame, one after the other.
fn questions(table: &[Record], filters: &[Filter], frame: &Frame) -> Vec<Test> {
    let readings = read(&frame.bytes, frame.port);
    let mut asked = Vec::new();
    let mut number = 0;
    while table[number][0] != 0 {
        let [kind, field, mask, value, holds, fails, absent, ..] = table[number];
        let test = Test { kind, field, mask, value };
        asked.push(test);
        number = match readings[field as usize] {
            None => absent,
            Some(x) if test.of(x) => holds,
            Some(_) => fails,
        } as usize;
        assert!(asked.len() <= MOST_FILTERS * MOST_TESTS as usize, "{filters:?}");
    }
    asked
}
