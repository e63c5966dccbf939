//! Sixty-four filters (document 02, P8): sets whose two words both count, and filters on either side
//! of the place where one word ends and the other begins.

use filterbox_tests::builder::{records, RECORD_WORDS};
use filterbox_tests::coverage::Coverage;
use filterbox_tests::examples::test;
use filterbox_tests::frames::Frame;
use filterbox_tests::gateway::{self, Judged, Setting, DROP, PASS, TALLIES};
use filterbox_tests::library::library;
use filterbox_tests::random::Random;
use filterbox_tests::rules::{words, Filter, EQUAL, MOST_FILTERS, ON_ITS_OWN};
use filterbox_tests::runner::Runner;
use filterbox_tests::sizes::{Set, OUT_AT, SURE_AT};
use filterbox_tests::walker::{Answer, DONE};

use crate::support::{build_in_slots, check_frame, classify_noted, Outcome};

/// Filters beside the ends of the two words.
const PLACES: [usize; 8] = [0, 1, 30, 31, 32, 33, 62, 63];
const SEED: u64 = 0x5EED_0000_0800;

pub fn run(runner: &mut Runner, coverage: &mut Coverage) {
    runner.check("64_filters_all_matched", || all_matched(coverage));
    runner.check("each_of_64_filters_alone", || one_alone(coverage));
    runner.check("a_port_for_each_of_64_filters", || ports(coverage));
    runner.check("one_filter_beats_another_across_the_halves", || pairs(coverage));
    runner.check("groups_across_the_halves", || groups(coverage));
    runner.check("each_of_64_filters_gives_the_verdict", || verdicts(coverage));
}

fn at_port(port: u8) -> Frame {
    Frame { bytes: Vec::new(), port }
}

/// A filter that holds of frames from one box port.
fn from_port(group: u32, level: u32, port: u32) -> Filter {
    Filter { group, level, tests: vec![test(EQUAL, 13, 255, port)] }
}

/// The list in as many slots as it has states.
fn compiled(filters: &[Filter], coverage: &mut Coverage) -> Outcome {
    let states = records(filters, 1000).expect("few states").len();
    build_in_slots(&words(filters), states, coverage)
}

/// The answer with every question allowed: each call must say that this is the match set.
fn matched(filters: &[Filter], frame: &Frame, built: &Outcome, coverage: &mut Coverage) -> Set {
    check_frame(filters, frame, built, coverage);
    let Answer { ended, sure, out, .. } =
        classify_noted(frame, &built.table, built.states(), u32::MAX, coverage);
    assert_eq!((ended, sure & out), (DONE, 0));
    let scanned = library().scan(&words(filters), &frame.bytes, frame.port);
    assert_eq!((scanned.refusal, scanned.set), (0, sure));
    sure
}

/// The four set words of the last record.
fn last_sets(built: &Outcome) -> [u32; 4] {
    let last = built.table.chunks_exact(RECORD_WORDS).last().expect("a record");
    assert_eq!(OUT_AT, SURE_AT + 2);
    last[SURE_AT..].try_into().expect("two sets of two words")
}

fn all_matched(coverage: &mut Coverage) {
    for count in [31, 32, 33, 63, 64] {
        let filters: Vec<Filter> = (0..count).map(|group| from_port(group, 0, 7)).collect();
        let all = Set::MAX >> (64 - count);
        let built = compiled(&filters, coverage);
        assert_eq!(built.states(), 3, "the question, all held, all out");
        assert_eq!(matched(&filters, &at_port(7), &built, coverage), all);
        assert_eq!(matched(&filters, &at_port(8), &built, coverage), 0);
        assert_eq!(last_sets(&built), [0, 0, all as u32, (all >> 32) as u32], "{count} filters");
    }
}

/// Of 64 filters one holds and no other can, as none does but one.
fn one_alone(coverage: &mut Coverage) {
    for alone in 0..MOST_FILTERS {
        let port = |i| if i == alone { 7 } else { 9 };
        let filters: Vec<Filter> =
            (0..MOST_FILTERS).map(|i| from_port(i as u32, 0, port(i))).collect();
        let built = compiled(&filters, coverage);
        assert_eq!(matched(&filters, &at_port(7), &built, coverage), 1 << alone);
        assert_eq!(matched(&filters, &at_port(9), &built, coverage), !(1 << alone));
        assert_eq!(matched(&filters, &at_port(8), &built, coverage), 0);
    }
}

fn ports(coverage: &mut Coverage) {
    let filters: Vec<Filter> = (0..64).map(|i| from_port(i, 0, i)).collect();
    let built = compiled(&filters, coverage);
    for port in 0..64 {
        assert_eq!(matched(&filters, &at_port(port), &built, coverage), 1 << port);
    }
    assert_eq!(matched(&filters, &at_port(64), &built, coverage), 0);
}

/// 64 filters hold, of which two are in one group: the one with the higher level stands, or the
/// earlier. A set that one word shares with the other would put out or leave a third.
fn pairs(coverage: &mut Coverage) {
    for a in PLACES {
        for b in PLACES.into_iter().filter(|&b| a < b) {
            for (up, down) in [(0, 0), (1, 0), (0, 1), (255, 254)] {
                let mut filters = vec![from_port(ON_ITS_OWN, 0, 7); MOST_FILTERS];
                filters[a] = from_port(5, up, 7);
                filters[b] = from_port(5, down, 7);
                let beaten = if up >= down { b } else { a };
                let built = compiled(&filters, coverage);
                let set = matched(&filters, &at_port(7), &built, coverage);
                assert_eq!(set, !(1 << beaten), "filters {a} and {b}, levels {up} and {down}");
            }
        }
    }
}

/// 64 filters in few groups, each from one of few ports: the match set is what ranks say.
fn groups(coverage: &mut Coverage) {
    let mut met = [0; 2];
    for case in 0..400 {
        let random = &mut Random::case(SEED, case);
        let few = random.between(1, 4);
        let mut some = || {
            let (group, level) = (random.between(0, few), random.below(3));
            from_port(group as u32, level as u32, random.below(4) as u32)
        };
        let filters: Vec<Filter> = (0..MOST_FILTERS).map(|_| some()).collect();
        let built = compiled(&filters, coverage);
        for port in 0..5 {
            let set = matched(&filters, &at_port(port), &built, coverage);
            met[0] += u32::from(set as u32 != 0);
            met[1] += u32::from(set >> 32 != 0);
        }
    }
    assert!(met.iter().all(|&count| count > 400), "sets with filters in each half: {met:?}");
}

fn verdicts(coverage: &mut Coverage) {
    let filters: Vec<Filter> = (0..64).map(|i| from_port(ON_ITS_OWN, 0, i)).collect();
    let built = compiled(&filters, coverage);
    for giver in 0..MOST_FILTERS {
        let mut verdicts = [PASS; MOST_FILTERS];
        verdicts[giver] = DROP;
        let (table, states) = (&built.table[..], built.states());
        let by = Setting { table, states, verdicts: &verdicts, standing: PASS };
        let frame = at_port(giver as u8);
        let (mut tallies, mut should) = ([0; TALLIES], [0; TALLIES]);
        let judged = library().judge(&frame, &by, &mut tallies);
        assert_eq!(judged, Judged { refusal: 0, verdict: DROP });
        assert_eq!(judged, gateway::judge_by_list(&filters, &frame, &by, &mut should));
        assert!(tallies == should && tallies[giver] == 1, "filter {giver}");
        coverage.refusal(judged.refusal);
    }
}
