//! Lent words with others before and behind them, and the comparisons that all checks share.

use filterbox_tests::builder::{self, Built, RECORD_WORDS};
use filterbox_tests::coverage::Coverage;
use filterbox_tests::demands::{self, describe};
use filterbox_tests::frames::Frame;
use filterbox_tests::lamp::{self, Lamp};
use filterbox_tests::library::library;
use filterbox_tests::rules::{words, Filter};
use filterbox_tests::scanner::{self, Scanned};
use filterbox_tests::walker::{self, Answer, MOST_FRAME};

/// The words on either side of what is lent.
const MARGIN: usize = 40;

/// Words of which the middle part is lent; all are filled with old numbers that must not matter.
#[derive(Clone)]
struct Room {
    words: Vec<u32>,
    lent: usize,
}

impl Room {
    fn new(lent: usize, salt: u32) -> Room {
        let words = (0..(lent + 2 * MARGIN) as u32)
            .map(|i| (i ^ salt).wrapping_mul(0x9E37_79B1) | 1)
            .collect();
        Room { words, lent }
    }

    fn lend(&mut self) -> &mut [u32] {
        &mut self.words[MARGIN..MARGIN + self.lent]
    }
}

/// What a build has left.
pub struct Outcome {
    pub built: Built,
    pub table: Vec<u32>,
}

impl Outcome {
    pub fn states(&self) -> u32 {
        assert_eq!(self.built.refusal, 0, "a table that was built");
        self.built.number
    }
}

/// The first place where two runs of words differ.
fn difference(got: &[u32], should: &[u32]) -> Option<String> {
    let at = got.iter().zip(should).position(|(a, b)| a != b)?;
    let place = at as isize - MARGIN as isize;
    Some(format!("word {place}: got {}, should be {}", got[at], should[at]))
}

/// Builds a list with the library and with the reference, in rooms with the same old words, and
/// compares the answers and every word of both rooms and around them.
pub fn build(
    list: &[u32],
    table_words: usize,
    scratch_words: usize,
    coverage: &mut Coverage,
) -> Outcome {
    let salt = coverage.lists as u32;
    let mut table = Room::new(table_words, salt);
    let mut scratch = Room::new(scratch_words, !salt);
    let mut table_should = table.clone();
    let mut scratch_should = scratch.clone();
    let given = list.to_vec();

    let built = library().build(list, table.lend(), scratch.lend());
    let slot_words = library().scratch_words();
    let should = builder::build(list, table_should.lend(), scratch_should.lend(), slot_words);

    let case = || {
        let none = Frame { bytes: Vec::new(), port: 0 };
        let case = describe(list, &none);
        format!("{case}\ntable of {table_words} words, scratch of {scratch_words} words")
    };
    assert!(built == should, "got {built:?}, should be {should:?}\n{}", case());
    for (name, got, should) in
        [("table", &table, &table_should), ("scratch", &scratch, &scratch_should)]
    {
        if let Some(text) = difference(&got.words, &should.words) {
            panic!("{name} {text}\nanswer {built:?}\n{}", case());
        }
    }
    for long in [false, true] {
        let frame = vec![0; if long { MOST_FRAME + 1 } else { 0 }];
        let scanned = library().scan(list, &frame, 0);
        let should =
            scanner::refused(should, long).unwrap_or(Scanned { refusal: 0, filter: 0, ..scanned });
        assert!(scanned == should, "scanned {scanned:?}, should be {should:?}\n{}", case());
        for states in [0, built.number] {
            lamp(list, &Frame { bytes: frame.clone(), port: 0 }, table.lend(), states);
        }
    }
    assert!(given == list, "the list was changed\n{}", case());
    note_build(built, coverage);
    Outcome { built, table: table.lend().to_vec() }
}

/// Counts a build.
pub fn note_build(built: Built, coverage: &mut Coverage) {
    coverage.lists += 1;
    coverage.refusal(built.refusal);
    if built.refusal == 0 {
        coverage.built += 1;
        coverage.states += u64::from(built.number);
    }
}

/// Builds a list in so many slots.
pub fn build_in_slots(list: &[u32], slots: usize, coverage: &mut Coverage) -> Outcome {
    build(list, slots * RECORD_WORDS, slots * library().scratch_words(), coverage)
}

/// The library's answer, which the reference's walk through the same words must give as well.
pub fn classify(frame: &Frame, table: &[u32], states: u32, allowance: u32) -> Answer {
    let answer = library().classify(&frame.bytes, frame.port, table, states, allowance);
    let should = walker::classify(&frame.bytes, frame.port, table, states, allowance);
    if answer != should {
        let records: Vec<String> =
            table.chunks(RECORD_WORDS).take(64).map(|record| format!("{record:?}")).collect();
        panic!(
            "{states} states, allowance {allowance}: got {answer:?}, should be {should:?}\n{}\n\
             table of {} words:\n{}",
            describe(&[], frame),
            table.len(),
            records.join("\n")
        );
    }
    answer
}

/// The lamp as the library shows it, which the reference must show as well.
pub fn lamp(list: &[u32], frame: &Frame, table: &[u32], states: u32) -> Lamp {
    let answer = library().lamp(list, &frame.bytes, frame.port, table, states);
    let should = lamp::lamp(list, frame, table, states);
    if answer != should {
        let records: Vec<String> =
            table.chunks(RECORD_WORDS).take(64).map(|record| format!("{record:?}")).collect();
        panic!(
            "{states} states: got {answer:?}, should be {should:?}\n{}\ntable of {} words:\n{}",
            describe(list, frame),
            table.len(),
            records.join("\n")
        );
    }
    answer
}

/// The same, counted.
pub fn classify_noted(
    frame: &Frame,
    table: &[u32],
    states: u32,
    allowance: u32,
    coverage: &mut Coverage,
) -> Answer {
    let answer = classify(frame, table, states, allowance);
    coverage.answer(&answer);
    answer
}

/// All that must be so of a frame's walk through a built table, and of its scan by the list.
pub fn check_frame(filters: &[Filter], frame: &Frame, built: &Outcome, coverage: &mut Coverage) {
    let states = built.states();
    let checked = demands::check(filters, frame, coverage, |allowance| {
        let answer = library().classify(&frame.bytes, frame.port, &built.table, states, allowance);
        let walked = walker::classify(&frame.bytes, frame.port, &built.table, states, allowance);
        assert!(
            answer == walked,
            "allowance {allowance}: got {answer:?}, the reference walks to {walked:?}\n{}",
            describe(&words(filters), frame)
        );
        answer
    });
    checked.unwrap_or_else(|text| panic!("{text}"));
    let list = words(filters);
    let shown = lamp(&list, frame, &built.table, states);
    demands::check_lamp(filters, frame, coverage, shown).unwrap_or_else(|text| panic!("{text}"));
    let scanned = library().scan(&list, &frame.bytes, frame.port);
    let should = scanner::scan(filters, frame);
    assert!(
        scanned == should,
        "scanned {scanned:?}, should be {should:?}\n{}",
        describe(&list, frame)
    );
}
