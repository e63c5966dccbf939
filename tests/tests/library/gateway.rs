//! The gateway: verdicts, tallies and refusals against the reference, over runs of frames and
//! clearings, and at the ends of every number.

use std::fs;

use filterbox_tests::builder::{record, records, Record};
use filterbox_tests::cases::GATEWAY_RUNS;
use filterbox_tests::coverage::Coverage;
use filterbox_tests::demands::describe;
use filterbox_tests::examples::{ECHO, ECHO_RECORDS};
use filterbox_tests::frames::{echo_request, towards, Frame};
use filterbox_tests::gateway::{
    self, Judged, Setting, ALLOWANCE, DIVERT, DROP, FULL, PASS, TALLIES,
};
use filterbox_tests::library::library;
use filterbox_tests::lists::{list, style};
use filterbox_tests::random::Random;
use filterbox_tests::rules::{read_list, words, Filter};
use filterbox_tests::runner::Runner;
use filterbox_tests::sizes::{
    put_set, set_at, Set, MOST_FILTERS, MOST_FRAME, RECORD_WORDS, SURE_AT,
};
use filterbox_tests::tools::root;

use crate::damage::{foreign_record, frames_for};

const SEED: u64 = 0x6A7E;
/// The frames and clearings of a run.
const EVENTS: usize = 3000;
/// The words on either side of the tallies.
const MARGIN: usize = 40;
const BESIDE: u32 = 0xBE51_DE00;

pub fn run(runner: &mut Runner, coverage: &mut Coverage) {
    runner.check("the_pages_run_of_a_gateway", || page_run(coverage));
    runner.check("tallies_add_up_over_runs_with_clearings", || runs(coverage));
    runner.check("each_tally_to_its_end", || ends_of_tallies(coverage));
    runner.check("refusals_of_a_gateway_in_their_order", || orders(coverage));
    runner.check("verdict_tables_and_rooms_of_each_length", || lengths(coverage));
    runner.check("verdicts_of_each_number_at_each_place", || numbers(coverage));
    runner.check("walks_of_512_questions_and_more", || long_walks(coverage));
    runner.check("foreign_tables_judged", || foreign_tables(coverage));
    runner.check("clearing_rooms_of_each_length", clearings);
}

const fn verdict(verdict: u32) -> Judged {
    Judged { refusal: 0, verdict }
}

const fn refused(refusal: u32) -> Judged {
    Judged { refusal, verdict: 0 }
}

/// Lends a copy of the tallies with other words beside it, and takes back what the call left there.
fn lend<R>(tallies: &mut [u32], call: impl FnOnce(&mut [u32]) -> R) -> R {
    let mut words = vec![BESIDE; MARGIN];
    words.extend_from_slice(tallies);
    words.resize(tallies.len() + 2 * MARGIN, BESIDE);
    let answer = call(&mut words[MARGIN..][..tallies.len()]);
    tallies.copy_from_slice(&words[MARGIN..][..tallies.len()]);
    let beside = words[..MARGIN].iter().chain(&words[MARGIN + tallies.len()..]);
    assert!(beside.copied().eq([BESIDE; 2 * MARGIN]), "words beside the tallies changed");
    answer
}

/// The library's judgement, which must be the one that `should` gives, with the same tallies.
fn judge_as(
    frame: &Frame,
    by: &Setting,
    tallies: &mut [u32],
    coverage: &mut Coverage,
    should: impl FnOnce(&mut [u32]) -> Judged,
) -> Judged {
    let mut after = tallies.to_vec();
    let expected = should(&mut after);
    let before = tallies.to_vec();
    let judged = lend(tallies, |tallies| library().judge(frame, by, tallies));
    assert!(
        judged == expected && tallies == after,
        "got {judged:?}, should be {expected:?}\n{by:?}\n{}\ntallies before {before:?}\nafter \
         {tallies:?}\nshould be {after:?}",
        describe(&[], frame)
    );
    coverage.refusal(judged.refusal);
    judged
}

fn judge(frame: &Frame, by: &Setting, tallies: &mut [u32], coverage: &mut Coverage) -> Judged {
    judge_as(frame, by, tallies, coverage, |after| gateway::judge(frame, by, after))
}

fn sum(tallies: &[u32]) -> u64 {
    tallies.iter().map(|&tally| u64::from(tally)).sum()
}

/// A record without a question, with such a sure set.
fn final_record(sure: Set) -> Record {
    record([0; 4], [0; 3], sure, !sure)
}

fn nothing() -> Frame {
    Frame { bytes: Vec::new(), port: 0 }
}

/// The run of the technicians' page: its lines are what the library answers.
fn page_run(coverage: &mut Coverage) {
    let page = fs::read_to_string(root().join("docs/TECHNICIANS.md")).expect("the page");
    let changed = |at: usize, bytes: &[u8]| {
        let mut frame = echo_request(1);
        frame.bytes[at..at + bytes.len()].copy_from_slice(bytes);
        frame
    };
    let reply = changed(34, &[0]);
    let mut long = echo_request(1);
    long.bytes.resize(MOST_FRAME + 1, 0);
    let run = [
        ("echo request, TTL 1", Some(echo_request(1))),
        ("echo request, TTL 64", Some(echo_request(64))),
        ("echo reply, TTL 1", Some(reply.clone())),
        ("TCP, TTL 1", Some(changed(23, &[6]))),
        ("ARP", Some(changed(12, &[8, 6]))),
        ("1,523 bytes", Some(long)),
        ("clearing", None),
        ("echo reply, TTL 1", Some(reply)),
    ];
    let table = ECHO_RECORDS.concat();
    let mut verdicts = [PASS; MOST_FILTERS];
    verdicts[..3].copy_from_slice(&[DIVERT, DROP, DROP]);
    let by = Setting { table: &table, states: 10, verdicts: &verdicts, standing: PASS };
    let filters = read_list(&ECHO).expect("well-formed");
    let mut tallies = [0; TALLIES];
    let mut lines = String::new();
    for (name, frame) in run {
        let said = match frame {
            None => {
                lend(&mut tallies, |tallies| library().clear(tallies));
                String::new()
            }
            Some(frame) => {
                let judged = judge_as(&frame, &by, &mut tallies, coverage, |after| {
                    gateway::judge_by_list(&filters, &frame, &by, after)
                });
                match judged {
                    Judged { refusal: 0, verdict } => format!("verdict {verdict}, "),
                    Judged { refusal, .. } => format!("refused {refusal}, "),
                }
            }
        };
        let [a, b, c] = [0, 1, 2].map(|i| tallies[i]);
        lines += &format!("{name}: {said}tallies {a} {b} {c} {}\n", tallies[MOST_FILTERS]);
        assert!(tallies[3..MOST_FILTERS].iter().all(|&tally| tally == 0));
    }
    assert!(page.contains(&format!("```\n{lines}```\n")), "not on the page:\n{lines}");
}

/// Verdicts of which any two neighbours mostly differ.
pub fn some_verdicts(random: &mut Random) -> [u32; MOST_FILTERS] {
    [0; MOST_FILTERS].map(|_| random.pick(&[PASS, DROP, DIVERT]))
}

/// Frames and clearings in any order, over tables that the library built. The list says what each
/// verdict must be; after each event the tallies add up to the frames judged since the clearing.
fn runs(coverage: &mut Coverage) {
    let mut judged_in_all = 0;
    let mut givers = 0u128;
    for case in 0..GATEWAY_RUNS.count() {
        let random = &mut Random::case(SEED, case as u64);
        let (filters, table, states) = built(random, case);
        let verdicts = some_verdicts(random);
        let standing = random.pick(&[PASS, DROP, DIVERT]);
        let by = Setting { table: &table, states, verdicts: &verdicts, standing };
        let frames: Vec<Frame> = (0..60).map(|_| run_frame(random, &filters)).collect();
        let mut tallies = [0xDEAD_BEEF; TALLIES];
        let mut since = 0;
        library().clear(&mut tallies);
        for _ in 0..EVENTS {
            if random.once_in(400) {
                lend(&mut tallies, |tallies| library().clear(tallies));
                since = 0;
            }
            let frame = &frames[random.below(frames.len())];
            let judged = judge_as(frame, &by, &mut tallies, coverage, |after| {
                gateway::judge_by_list(&filters, frame, &by, after)
            });
            since += u64::from(judged.refusal == 0);
            judged_in_all += u64::from(judged.refusal == 0);
            assert_eq!(sum(&tallies), since);
        }
        givers |= (0..TALLIES).filter(|&i| tallies[i] > 0).fold(0, |set, i| set | 1 << i);
    }
    let least = GATEWAY_RUNS.count() * EVENTS / 2;
    assert!(judged_in_all > least as u64, "only {judged_in_all} frames were judged");
    assert!(givers.count_ones() > 8 && givers >> MOST_FILTERS == 1, "verdicts by {givers:b} alone");
}

/// A list with its table; a list that needs too many states is left out.
pub fn built(random: &mut Random, case: usize) -> (Vec<Filter>, Vec<u32>, u32) {
    loop {
        if let Some(built) = table_of(list(random, style(case % 50, 50)), 200) {
            return built;
        }
    }
}

/// A list with its table, if it needs no more than so many states.
pub fn table_of(filters: Vec<Filter>, most: usize) -> Option<(Vec<Filter>, Vec<u32>, u32)> {
    let slots = records(&filters, most)?.len();
    let mut table = vec![0; slots * RECORD_WORDS];
    let mut scratch = vec![0; slots * library().scratch_words()];
    let built = library().build(&words(&filters), &mut table, &mut scratch);
    assert_eq!((built.refusal, built.number as usize), (0, slots));
    Some((filters, table, built.number))
}

/// A frame towards a list, now and then one that is too long.
fn run_frame(random: &mut Random, filters: &[Filter]) -> Frame {
    let mut frame = towards(random, filters);
    if random.once_in(30) {
        frame.bytes.resize(MOST_FRAME + 1, 0);
    }
    frame
}

/// Each tally, with the others at any number: at 4,294,967,294 it counts once more, and then no more.
fn ends_of_tallies(coverage: &mut Coverage) {
    let verdicts: Vec<u32> = (0..MOST_FILTERS as u32).map(|i| i % 3).collect();
    for place in 0..TALLIES {
        // The lowest filter of a set gives the verdict, whatever stands above it.
        for above in [0, Set::MAX, 0xAAAA_AAAA_AAAA_AAAA] {
            let sure = if place == MOST_FILTERS { 0 } else { 1 << place | above << place };
            let table = final_record(sure);
            let by = Setting { table: &table, states: 1, verdicts: &verdicts, standing: DIVERT };
            let gives = verdict(if place == MOST_FILTERS { DIVERT } else { verdicts[place] });
            for others in [0, 1, FULL - 1, FULL] {
                let mut tallies = [others; TALLIES];
                tallies[place] = FULL - 1;
                let mut after = tallies;
                after[place] = FULL;
                assert_eq!(judge(&nothing(), &by, &mut tallies, coverage), gives);
                assert_eq!(tallies, after);
                for _ in 0..2 {
                    assert_eq!(judge(&nothing(), &by, &mut tallies, coverage), refused(15));
                    assert_eq!(tallies, after);
                }
                tallies[place] = 0;
                assert_eq!(judge(&nothing(), &by, &mut tallies, coverage), gives);
                assert_eq!(tallies[place], 1);
            }
        }
    }
}

/// Any of the five refusals at once, each in several ways: the first of their order is answered, and
/// no tally changes.
fn orders(coverage: &mut Coverage) {
    let (sound, circle) = (final_record(4), record([4, 13, 0, 0], [0; 3], 4, 0));
    let damaged = record([5, 0, 0, 0], [0; 3], 4, 0);
    let (good, longer) = ([DROP; MOST_FILTERS], [DROP; MOST_FILTERS + 1]);
    let mut strange = good;
    strange[MOST_FILTERS - 1] = 3;
    let mut long = nothing();
    long.bytes.resize(MOST_FRAME + 1, 0);
    for faults in 0..32u32 {
        let faulty = |i: u32| faults >> i & 1 == 1;
        for way in 0..4 {
            let room = if faulty(0) { [TALLIES - 1, TALLIES + 1, 0, 33][way] } else { TALLIES };
            let (verdicts, standing) = match (faulty(1), way) {
                (false, _) => (&good[..], DROP),
                (true, 0) => (&strange[..], DROP),
                (true, 1) => (&good[1..], DROP),
                (true, 2) => (&longer[..], DROP),
                (true, _) => (&good[..], 3),
            };
            let frame = if faulty(2) { &long } else { &nothing() };
            let (table, states) = match (faulty(3), way) {
                (false, _) => (&sound, 1),
                (true, 0) => (&circle, 1),
                (true, 1) => (&sound, 0),
                (true, 2) => (&sound, 2),
                (true, _) => (&damaged, 1),
            };
            let by = Setting { table, states, verdicts, standing };
            let mut tallies = vec![if faulty(4) { FULL } else { 6 }; room];
            let before = tallies.clone();
            let should = (0..5).find(|&i| faulty(i)).map(|i| [24, 16, 12, 13, 15][i as usize]);
            let judged = judge(frame, &by, &mut tallies, coverage);
            assert_eq!(judged, should.map_or(verdict(DROP), refused), "{faults:b}, way {way}");
            assert_eq!(tallies == before, should.is_some());
        }
    }
}

fn lengths(coverage: &mut Coverage) {
    let table = final_record(0);
    for verdicts in 0..=70 {
        let verdicts = vec![DIVERT; verdicts];
        for room in 0..=70 {
            let by = Setting { table: &table, states: 1, verdicts: &verdicts, standing: DROP };
            let should = match (room, verdicts.len()) {
                (65, 64) => verdict(DROP),
                (65, _) => refused(16),
                _ => refused(24),
            };
            assert_eq!(judge(&nothing(), &by, &mut vec![9; room], coverage), should);
        }
    }
}

/// A number that is no verdict at one place, and as the standing one, whoever gives the verdict.
fn numbers(coverage: &mut Coverage) {
    for place in 0..=MOST_FILTERS {
        for number in [0, 1, 2, 3, 4, 255, 0x8000_0000, u32::MAX] {
            for giver in [0, 7, 31, 32, MOST_FILTERS - 1, MOST_FILTERS] {
                let table = final_record(Set::checked_shl(1, giver as u32).unwrap_or(0));
                let mut verdicts = [PASS; MOST_FILTERS];
                let mut standing = PASS;
                *verdicts.get_mut(place).unwrap_or(&mut standing) = number;
                let by = Setting { table: &table, states: 1, verdicts: &verdicts, standing };
                let should = match number {
                    0..=2 if giver == place => verdict(number),
                    0..=2 => verdict(PASS),
                    _ => refused(16),
                };
                assert_eq!(judge(&nothing(), &by, &mut [3; TALLIES], coverage), should);
            }
        }
    }
}

/// Questions in a row with a final record behind them: 512 are allowed, and no more. And a circle.
fn long_walks(coverage: &mut Coverage) {
    let verdicts = [DIVERT; MOST_FILTERS];
    for questions in [0, 1, 256, 257, 511, 512, 513, 600] {
        let asks = |n: u32| record([4, 13, 0, 0], [n + 1, n, n], 1, 0);
        let mut table: Vec<u32> = (0..questions).flat_map(asks).collect();
        table.extend(final_record(1));
        let by =
            Setting { table: &table, states: questions + 1, verdicts: &verdicts, standing: PASS };
        let should = if questions <= ALLOWANCE { verdict(DIVERT) } else { refused(13) };
        let mut tallies = [0; TALLIES];
        assert_eq!(judge(&nothing(), &by, &mut tallies, coverage), should);
        assert_eq!(tallies[0], u32::from(questions <= ALLOWANCE));
    }
    for sure in [0, 1, 1 << 31, 1 << 32, 1 << 63, Set::MAX] {
        let circle = record([4, 13, 0, 0], [0; 3], sure, 0);
        let by = Setting { table: &circle, states: 1, verdicts: &verdicts, standing: PASS };
        for tally in [0, FULL] {
            assert_eq!(judge(&nothing(), &by, &mut [tally; TALLIES], coverage), refused(13));
        }
    }
}

/// Tables that nobody's builder would write, with tallies of any numbers.
fn foreign_tables(coverage: &mut Coverage) {
    let mut met = [0; 4];
    for case in 0..2000 {
        let random = &mut Random::case(SEED ^ 1, case);
        let states = random.between(1, 24) as u32;
        let mut record = |_| {
            let mut record = foreign_record(random, states);
            // Sets with few filters, so that each is the lowest at times.
            let few = set_at(&record, SURE_AT) & Set::MAX << random.below(MOST_FILTERS);
            put_set(&mut record, SURE_AT, if random.once_in(6) { 0 } else { few });
            record
        };
        let table: Vec<u32> = (0..states).flat_map(&mut record).collect();
        let verdicts = some_verdicts(random);
        let standing = random.pick(&[PASS, DROP, DIVERT]);
        let by = Setting { table: &table, states, verdicts: &verdicts, standing };
        let mut tallies = [0; TALLIES].map(|_: u32| random.pick(&[0, 1, FULL - 1, FULL]));
        for frame in frames_for(random, &table) {
            for _ in 0..3 {
                match judge(&frame, &by, &mut tallies, coverage).refusal {
                    0 => met[0] += 1,
                    13 => met[1] += 1,
                    15 => met[2] += 1,
                    other => panic!("refused with {other}"),
                }
            }
            met[3] += usize::from(tallies[MOST_FILTERS] > 0);
        }
    }
    assert!(met.iter().all(|&times| times > 1000), "verdicts, 13, 15, unmatched: {met:?}");
}

fn clearings() {
    for room in 0..=100 {
        for word in [0, 1, FULL] {
            let mut tallies = vec![word; room];
            lend(&mut tallies, |tallies| library().clear(tallies));
            assert_eq!(tallies, vec![0; room]);
        }
    }
}
