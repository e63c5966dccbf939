//! Measures the library beside ordinary Rust code that does the same, as ratios in one run.
//!
//! - `filterbox-bench`: nanoseconds a frame for four lists, walked, scanned and asked by the lamp, and
//!   build times, as four small tables;
//! - `filterbox-bench lamp`: the lamp's table alone;
//! - `filterbox-bench count CASE WHO N`: classifies N frames of a case (a, b, c, d) with one contender
//!   (library, in-turn, sorted, walk), or asks the lamp of them, and nothing else, for counting instructions;
//! - `filterbox-bench build LIST`: builds one list once with the library, for the same;
//! - `filterbox-bench far CASE CALL N`: the same over the pipe of the tests, where the library cannot
//!   be linked: CALL is classify, or nothing, which does all but the call.
//!
//! Contenders take turns in short rounds and each number is the median of its rounds, so that what
//! else the machine does falls on all of them alike. Times are of the processor, not of the wall.

mod clock;
mod lists;
#[path = "../../tests/src/pipe.rs"]
#[allow(dead_code)]
mod pipe;
mod plain;
mod scanner;

use std::env;
use std::hint::black_box;

use filterbox_sys as library;
use lists::{Packet, Random, FRAME};
use plain::{AsSlices, Built, FromTheBack, FromTheFront, Set, RECORD};
use scanner::{InTurn, Sorted};

const FRAMES: usize = 16_384;
const ROUNDS: usize = 31;
/// The lamp works residues out, and takes many times as long a frame.
const LAMP_FRAMES: usize = 1_024;

/// A list with its table and frames.
struct Case {
    name: &'static str,
    list: Vec<u32>,
    table: Vec<u32>,
    states: u32,
    frames: Vec<[u8; FRAME]>,
}

impl Case {
    fn new(name: &'static str, list: Vec<u32>, packet: fn(&mut Random) -> Packet) -> Case {
        let mut table = vec![0; plain::MOST_SLOTS * RECORD];
        let mut scratch = vec![0; plain::MOST_SLOTS * plain::SLOT];
        let built = plain::build::<AsSlices>(&list, &mut table, &mut scratch);
        assert_eq!(built.refusal, 0, "{name} is built");
        table.truncate(built.number as usize * RECORD);
        let random = &mut Random(2_024);
        let frames = (0..FRAMES).map(|_| packet(random).bytes()).collect();
        Case { name, list, table, states: built.number, frames }
    }

    /// The sure sets of all frames, to see that all contenders do the same.
    fn sets(&self, ask: impl Fn(&[u8]) -> Set) -> Vec<Set> {
        self.frames.iter().map(|frame| ask(frame)).collect()
    }
}

fn cases() -> Vec<Case> {
    vec![
        Case::new("a: 32 ports, 32 groups", lists::ports(32), lists::port_packet::<32>),
        Case::new("b: firewall, one group", lists::firewall(), lists::firewall_packet),
        Case::new("c: echo example", lists::ECHO.to_vec(), lists::echo_packet),
        Case::new("d: 64 ports, 64 groups", lists::ports(64), lists::port_packet::<64>),
    ]
}

fn median(numbers: &mut [f64]) -> f64 {
    numbers.sort_by(f64::total_cmp);
    numbers[numbers.len() / 2]
}

/// Nanoseconds that `ask` takes for a frame, over all frames once.
fn time<T: Into<u64>>(case: &Case, mut ask: impl FnMut(&[u8]) -> T) -> f64 {
    let began = clock::now();
    let mut sum = 0u64;
    for frame in &case.frames {
        sum = sum.wrapping_add(ask(black_box(frame)).into());
    }
    black_box(sum);
    (clock::now() - began) / case.frames.len() as f64
}

fn classify_table(cases: &[Case]) {
    println!("Classifying, ns a frame and ratio to the scanner that asks in turn");
    println!(
        "{:<26}{:>7}{:>10}{:>10}{:>16}{:>16}{:>16}",
        "list", "states", "questions", "in turn", "sorted, flat", "plain walk", "library"
    );
    for case in cases {
        let (in_turn, sorted) = (InTurn::new(&case.list), Sorted::new(&case.list));
        let walk = |frame: &[u8]| plain::classify(frame, 0, &case.table, case.states, u32::MAX);
        let ours = |frame: &[u8]| library::classify(frame, 0, &case.table, case.states, u32::MAX);
        assert!(case.table == built_by_the_library(case), "{}: the same table", case.name);
        let sets = case.sets(|frame| in_turn.scan_in_turn(frame, 0));
        assert!(sets == case.sets(|frame| sorted.scan_sorted(frame, 0)));
        assert!(sets == case.sets(|frame| walk(frame).sure));
        assert!(sets == case.sets(|frame| ours(frame).sure));
        let asked: u32 = case.frames.iter().map(|frame| ours(frame).asked).sum();
        let mut times = [const { Vec::new() }; 4];
        for _ in 0..ROUNDS {
            times[0].push(time(case, |frame| in_turn.scan_in_turn(frame, 0)));
            times[1].push(time(case, |frame| sorted.scan_sorted(frame, 0)));
            times[2].push(time(case, |frame| walk(frame).sure));
            times[3].push(time(case, |frame| ours(frame).sure));
        }
        let [base, others @ ..] = times.map(|mut rounds| median(&mut rounds));
        let questions = f64::from(asked) / case.frames.len() as f64;
        print!("{:<26}{:>7}{questions:>10.1}{base:>10.1}", case.name, case.states);
        for other in others {
            print!("{:>9.1} {:>6.2}", other, other / base);
        }
        println!();
    }
}

/// The call without a table. A frame that is too long ends it behind the list's check, so that the
/// check's own time is known; the plain scanner has its list read and ranked before the first frame.
fn scan_table(cases: &[Case]) {
    println!("\nScanning without a table, ns a frame and ratio to the scanner that asks in turn");
    println!(
        "{:<26}{:>10}{:>10}{:>12}{:>16}{:>7}",
        "list", "in turn", "library", "list check", "without it", "ratio"
    );
    let long = [0; 1523];
    for case in cases {
        let in_turn = InTurn::new(&case.list);
        let ours = |frame: &[u8]| library::scan(&case.list, frame, 0).set;
        let check = |_: &[u8]| library::scan(&case.list, black_box(&long), 0).refusal;
        let sets = case.sets(|frame| in_turn.scan_in_turn(frame, 0));
        assert!(sets == case.sets(ours));
        let mut times = [const { Vec::new() }; 3];
        for _ in 0..ROUNDS {
            times[0].push(time(case, |frame| in_turn.scan_in_turn(frame, 0)));
            times[1].push(time(case, ours));
            times[2].push(time(case, check));
        }
        let [base, whole, check] = times.map(|mut rounds| median(&mut rounds));
        let rest = whole - check;
        println!(
            "{:<26}{base:>10.1}{whole:>10.1}{check:>12.1}{rest:>16.1}{:>7.2}",
            case.name,
            rest / base
        );
    }
}

/// Whether anything matches, by list and table; the plain one is the same algorithm.
fn lamp_table(cases: &[Case]) {
    println!("\nThe lamp, ns a frame and ratio to the plain one");
    println!("{:<26}{:>10}{:>12}{:>12}{:>7}", "list", "questions", "plain", "library", "ratio");
    for case in cases {
        let frames = case.frames[..LAMP_FRAMES].to_vec();
        let (list, table) = (case.list.clone(), case.table.clone());
        let case = &Case { name: case.name, list, table, states: case.states, frames };
        let plain = |frame: &[u8]| plain::lamp(&case.list, frame, 0, &case.table, case.states);
        let ours = |frame: &[u8]| library::lamp(&case.list, frame, 0, &case.table, case.states);
        assert!(case.frames.iter().all(|frame| plain(frame) == ours(frame)));
        let asked: u32 = case.frames.iter().map(|frame| ours(frame).asked).sum();
        let mut times = [const { Vec::new() }; 2];
        for _ in 0..ROUNDS {
            times[0].push(time(case, |frame| plain(frame).lit));
            times[1].push(time(case, |frame| ours(frame).lit));
        }
        let [base, whole] = times.map(|mut rounds| median(&mut rounds));
        let questions = f64::from(asked) / case.frames.len() as f64;
        println!(
            "{:<26}{questions:>10.1}{base:>12.1}{whole:>12.1}{:>7.2}",
            case.name,
            whole / base
        );
    }
}

fn built_by_the_library(case: &Case) -> Vec<u32> {
    let mut table = vec![0; case.table.len()];
    let mut scratch = vec![0; case.states as usize * library::scratch_words()];
    assert_eq!(library::build(&case.list, &mut table, &mut scratch).number, case.states);
    table
}

type Build = fn(&[u32], &mut [u32], &mut [u32]) -> Built;

/// The library first, then the plain builders in the order of the printed columns.
const BUILDERS: [Build; 4] = [
    library::build,
    plain::build::<FromTheBack>,
    plain::build::<AsSlices>,
    plain::build::<FromTheFront>,
];

fn build_table() {
    println!("\nBuilding, ms and the library's ratio to the plain builders");
    println!(
        "{:<26}{:>7}{:>10}{:>18}{:>7}{:>18}{:>7}{:>18}{:>7}",
        "list",
        "states",
        "library",
        "plain, same way",
        "ratio",
        "plain, memcmp",
        "ratio",
        "plain, before P3",
        "ratio"
    );
    for (name, list, rounds) in built_lists() {
        let states = states(&list);
        // Scratch as the call before left it, zero in the slots; the table with its old records.
        let mut table = vec![1; states * RECORD];
        let mut scratch = vec![1; states * library::scratch_words().max(plain::SLOT)];
        let mut times = [const { Vec::new() }; BUILDERS.len()];
        let mut tables = Vec::new();
        for round in 0..rounds {
            for (build, times) in BUILDERS.iter().zip(&mut times) {
                let began = clock::now();
                let built = build(black_box(&list), &mut table, &mut scratch);
                times.push((clock::now() - began) / 1e6);
                assert_eq!((built.refusal, built.number as usize), (0, states));
                if round == 0 {
                    tables.push(table.clone());
                }
            }
        }
        assert!(tables.windows(2).all(|pair| pair[0] == pair[1]), "{name}: the same table");
        let [ours, plain @ ..] = times.map(|mut rounds| median(&mut rounds));
        print!("{name:<26}{states:>7}{ours:>10.3}");
        for plain in plain {
            print!("{plain:>18.3}{:>7.2}", ours / plain);
        }
        println!();
    }
}

/// The lists that are built, and how often.
fn built_lists() -> Vec<(&'static str, Vec<u32>, usize)> {
    vec![
        ("6 one-bit tests", lists::one_bit_tests(6), 101),
        ("b: firewall, one group", lists::firewall(), 31),
        ("9 one-bit tests", lists::one_bit_tests(9), 31),
        ("11 one-bit tests", lists::one_bit_tests(11), 7),
        ("d: 64 ports, 64 groups", lists::ports(64), 31),
    ]
}

/// Builds one list with the library, once.
fn count_build(name: &str) {
    let lists = built_lists();
    let (_, list, _) = lists.iter().find(|list| list.0.starts_with(name)).expect("a list");
    let states = states(list);
    let mut table = vec![1; states * RECORD];
    let mut scratch = vec![1; states * library::scratch_words()];
    assert_eq!(library::build(list, &mut table, &mut scratch).number as usize, states);
    println!("{states} states");
}

fn states(list: &[u32]) -> usize {
    let mut table = vec![0; plain::MOST_SLOTS * RECORD];
    let mut scratch = vec![0; plain::MOST_SLOTS * plain::SLOT];
    let built = plain::build::<AsSlices>(list, &mut table, &mut scratch);
    assert_eq!(built.refusal, 0);
    built.number as usize
}

fn case(name: &str) -> Case {
    let found = cases().into_iter().find(|known| known.name.starts_with(name));
    found.unwrap_or_else(|| panic!("no case {name}"))
}

/// Classifies so many frames over the pipe, or does all but that.
fn far(case: &Case, call: &str, frames: usize) {
    let call = match call {
        "classify" => pipe::CLASSIFY,
        "nothing" => pipe::NOTHING,
        _ => panic!("no call {call}"),
    };
    for frame in case.frames.iter().cycle().take(frames) {
        let numbers = &[0, case.states, u32::MAX];
        let rooms = &mut [pipe::Room::Bytes(frame), pipe::Room::Shown(&case.table)];
        pipe::call(pipe::Call { call, place: pipe::Place::Middle, numbers }, rooms);
    }
}

/// Classifies so many frames with one contender only.
fn count(case: &Case, who: &str, frames: usize) {
    let (in_turn, sorted) = (InTurn::new(&case.list), Sorted::new(&case.list));
    let mut sum: Set = 0;
    for frame in case.frames.iter().cycle().take(frames) {
        let frame = black_box(&frame[..]);
        sum = sum.wrapping_add(match who {
            "library" => library::classify(frame, 0, &case.table, case.states, u32::MAX).sure,
            "lamp" => library::lamp(&case.list, frame, 0, &case.table, case.states).asked.into(),
            "in-turn" => in_turn.scan_in_turn(frame, 0),
            "sorted" => sorted.scan_sorted(frame, 0),
            "walk" => plain::classify(frame, 0, &case.table, case.states, u32::MAX).sure,
            _ => panic!("no contender {who}"),
        });
    }
    println!("{frames} frames, sum {sum}");
}

fn main() {
    let words: Vec<String> = env::args().skip(1).collect();
    match words.iter().map(String::as_str).collect::<Vec<_>>()[..] {
        [] => {
            classify_table(&cases());
            scan_table(&cases());
            lamp_table(&cases());
            build_table();
        }
        ["lamp"] => lamp_table(&cases()),
        ["count", name, who, frames] => count(&case(name), who, frames.parse().expect("a number")),
        ["build", name] => count_build(name),
        ["far", name, call, frames] => far(&case(name), call, frames.parse().expect("a number")),
        _ => panic!("usage: filterbox-bench [lamp | count CASE WHO FRAMES | build LIST | far CASE CALL FRAMES]"),
    }
}
