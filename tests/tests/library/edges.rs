//! Lent memory that ends at a forbidden page: the calls must stay inside it, and classifying must not
//! write. A linked call that does not stops the whole run, at the check whose name was printed last.

use filterbox_tests::builder::{self, records, RECORD_WORDS};
use filterbox_tests::coverage::Coverage;
use filterbox_tests::examples::{empty_filters, ECHO, ECHO_RECORDS};
use filterbox_tests::frames::{echo_request, towards, Frame};
use filterbox_tests::gateway::{self, Setting, DROP, PASS};
use filterbox_tests::lamp;
use filterbox_tests::library::library;
use filterbox_tests::lists::{list, style};
use filterbox_tests::pipe::Place;
use filterbox_tests::random::Random;
use filterbox_tests::rules::{read_list, words};
use filterbox_tests::runner::Runner;
use filterbox_tests::walker::{self, MOST_FRAME};

use crate::support::note_build;

const SEED: u64 = 0xED6E;
const LISTS: usize = 400;
const ENDS: [Place; 2] = [Place::Front, Place::Back];

pub fn run(runner: &mut Runner, coverage: &mut Coverage) {
    runner.check("builds_stay_inside_their_rooms", || builds(coverage));
    runner.check("classifying_stays_inside_and_only_reads", || classifying(coverage));
    runner.check("the_lamp_stays_inside_and_only_reads", lamps);
    runner.check("frames_of_each_length_are_read_inside", || each_length(coverage));
    runner.check("judging_and_clearing_stay_inside_their_rooms", || gateways(coverage));
}

/// Builds in memory of exactly the lengths that are told, old words included.
fn build_at(list: &[u32], slots: usize, odd: usize, end: Place, coverage: &mut Coverage) {
    let slot_words = library().scratch_words();
    let mut table = vec![0xAAAA_AAAA; slots * RECORD_WORDS + odd];
    let mut scratch = vec![0x5555_5555; slots * slot_words];
    let (mut table_should, mut scratch_should) = (table.clone(), scratch.clone());
    let built = library().at(end).build(list, &mut table, &mut scratch);
    let should = builder::build(list, &mut table_should, &mut scratch_should, slot_words);
    assert!(built == should, "got {built:?}, should be {should:?} for {list:?}");
    assert!(table == table_should && scratch == scratch_should, "{list:?}");
    note_build(built, coverage);
}

fn builds(coverage: &mut Coverage) {
    for end in ENDS {
        for slots in [0, 1, 9, 10, 11] {
            build_at(&ECHO, slots, slots % RECORD_WORDS, end, coverage);
            build_at(&[], slots, 0, end, coverage);
        }
        for cut in 0..ECHO.len() {
            build_at(&ECHO[..cut], 2, 0, end, coverage);
        }
        build_at(&empty_filters(33), 1, 0, end, coverage);
        for case in 0..LISTS {
            let random = &mut Random::case(SEED, case as u64);
            let filters = list(random, style(case, LISTS));
            let Some(records) = records(&filters, 100) else { continue };
            for fewer in [0, 1] {
                let slots = records.len() - fewer;
                build_at(&words(&filters), slots, random.below(RECORD_WORDS), end, coverage);
            }
        }
    }
}

/// The library's answer from memory of exactly these lengths that cannot be written.
fn classify_at(frame: &Frame, table: &[u32], end: Place, coverage: &mut Coverage) {
    let states = (table.len() / RECORD_WORDS) as u32;
    coverage.frame(frame);
    for allowance in [0, 1, 3, u32::MAX] {
        let answer = library().at(end).classify(&frame.bytes, frame.port, table, states, allowance);
        let should = walker::classify(&frame.bytes, frame.port, table, states, allowance);
        assert!(answer == should, "got {answer:?}, should be {should:?} for {frame:?}");
        coverage.answer(&answer);
    }
}

fn classifying(coverage: &mut Coverage) {
    for case in 0..LISTS {
        let random = &mut Random::case(SEED ^ 1, case as u64);
        let filters = list(random, style(case, LISTS));
        let Some(records) = records(&filters, 100) else { continue };
        for end in ENDS {
            for _ in 0..5 {
                let frame = towards(random, &filters);
                classify_at(&frame, &records.concat(), end, coverage);
            }
        }
    }
}

fn lamps() {
    for case in 0..LISTS {
        let random = &mut Random::case(SEED ^ 2, case as u64);
        let filters = list(random, style(case, LISTS));
        let Some(records) = records(&filters, 100) else { continue };
        let (list, table) = (words(&filters), records.concat());
        for end in ENDS {
            for states in [records.len() as u32, records.len() as u32 + 1, 1] {
                let frame = towards(random, &filters);
                let (bytes, port) = (&frame.bytes, frame.port);
                let answer = library().at(end).lamp(&list, bytes, port, &table, states);
                assert_eq!(answer, lamp::lamp(&list, &frame, &table, states), "{list:?} {frame:?}");
            }
        }
    }
}

/// Judging in memory of exactly these lengths; only the tallies can be written.
fn gateways(coverage: &mut Coverage) {
    let table = ECHO_RECORDS.concat();
    let frame = echo_request(1);
    for end in ENDS {
        let at = library().at(end);
        for (verdicts, room) in
            [(64, 65), (63, 65), (65, 65), (0, 65), (64, 64), (64, 66), (64, 0), (32, 33)]
        {
            let verdicts = vec![DROP; verdicts];
            let by = Setting { table: &table, states: 10, verdicts: &verdicts, standing: PASS };
            let mut tallies = vec![7; room];
            let mut should = tallies.clone();
            let judged = at.judge(&frame, &by, &mut tallies);
            assert_eq!(judged, gateway::judge(&frame, &by, &mut should));
            assert_eq!(tallies, should);
            coverage.refusal(judged.refusal);
            at.clear(&mut tallies);
            assert_eq!(tallies, vec![0; room]);
        }
    }
}

/// Packets of each protocol whose headers reach to the very end, and such as claim to reach further.
fn each_length(coverage: &mut Coverage) {
    let filters = [9, 10, 12].map(|field| [field, 0, 1, 4, field, 0, 0]).concat();
    let filters = read_list(&filters).expect("well-formed");
    let table = records(&filters, 100).expect("few states").concat();
    for length in 0..=MOST_FRAME + 1 {
        for (protocol, header, more) in [(1, 5, 0), (6, 5, 0), (17, 6, 0), (6, 15, 0), (6, 5, 1)] {
            let mut bytes = vec![0xFF; length];
            let total = (length + more).saturating_sub(14) as u16;
            for (at, byte) in [
                (12, 8),
                (13, 0),
                (14, 0x40 | header),
                (16, total.to_be_bytes()[0]),
                (17, total.to_be_bytes()[1]),
                (23, protocol),
            ] {
                if let Some(place) = bytes.get_mut(at) {
                    *place = byte;
                }
            }
            for end in ENDS {
                let frame = Frame { bytes: bytes.clone(), port: 1 };
                classify_at(&frame, &table, end, coverage);
            }
        }
    }
}
