//! Captures of real tools: replayed through the scanner and through tables that the library builds,
//! and, where libpcap is installed, the scanner against libpcap's own filter for the same rules.

use std::fs;
use std::path::PathBuf;
use std::process::Command;

use filterbox_tests::builder::{records, RECORD_WORDS};
use filterbox_tests::coverage::Coverage;
use filterbox_tests::demands;
use filterbox_tests::examples::{echo_in_one_group, test, ECHO};
use filterbox_tests::fields::{later_fragment, read};
use filterbox_tests::frames::Frame;
use filterbox_tests::library::library;
use filterbox_tests::lists::{list, style};
use filterbox_tests::pcap;
use filterbox_tests::random::Random;
use filterbox_tests::rules::{read_list, words, Filter, Test, AT_LEAST, AT_MOST, DIFFERS, EQUAL};
use filterbox_tests::runner::{Ended, Runner};
use filterbox_tests::scanner::{filter_holds, match_set};
use filterbox_tests::tools::{root, run, with_libpcap};

/// The captures, with the frames in each, how many of them are echo requests, of which only the first
/// fragment counts, and how many are later fragments.
const CAPTURES: [(&str, usize, usize, usize); 5] = [
    ("neighbours", 31, 2, 0),
    ("icmp", 32, 14, 2),
    ("tcp", 36, 0, 0),
    ("udp", 10, 0, 0),
    ("fragments", 25, 3, 16),
];
const RANDOM_LISTS: usize = 400;

fn main() {
    let mut runner = Runner::new();
    let mut coverage = Coverage::default();
    runner.check("captures_have_their_frames", known_frames);
    for (name, ..) in CAPTURES {
        runner.check(&format!("{name}_through_scanner_and_table"), || replay(name, &mut coverage));
    }
    runner.attempt("scanner_and_libpcap_agree", against_libpcap);
    let (report, _) = coverage.report();
    println!("\n{}\n", report.lines().next().expect("a first line"));
    runner.finish();
}

fn file(name: &str) -> PathBuf {
    root().join("tests/data").join(name)
}

fn frames(name: &str) -> Vec<Frame> {
    let path = file(&format!("{name}.pcap"));
    let bytes = fs::read(&path).unwrap_or_else(|error| panic!("{path:?}: {error}"));
    let frames = pcap::frames(&bytes).unwrap_or_else(|error| panic!("{path:?}: {error}"));
    let port = |i: usize| (i % 3) as u8;
    frames.into_iter().enumerate().map(|(i, bytes)| Frame { bytes, port: port(i) }).collect()
}

fn known_frames() {
    let echo = read_list(&ECHO).expect("well-formed");
    for (name, count, requests, later) in CAPTURES {
        let frames = frames(name);
        assert_eq!(frames.len(), count, "{name}");
        let matching = |frame: &&Frame| match_set(&echo, &read(&frame.bytes, 0)) & 1 == 1;
        assert_eq!(frames.iter().filter(matching).count(), requests, "{name}");
        let behind = |frame: &&Frame| later_fragment(&read(&frame.bytes, 0));
        assert_eq!(frames.iter().filter(behind).count(), later, "{name}");
    }
}

/// The rules that libpcap is asked as well, and lists of many sorts.
fn lists() -> Vec<Vec<Filter>> {
    let mut lists: Vec<Vec<Filter>> =
        [ECHO.to_vec(), echo_in_one_group([3, 2, 1]), echo_in_one_group([1, 2, 3])]
            .iter()
            .map(|words| read_list(words).expect("well-formed"))
            .collect();
    for (rule, _) in rules() {
        lists.push(vec![Filter { group: 0, level: 0, tests: rule }]);
    }
    for case in 0..RANDOM_LISTS {
        let random = &mut Random::case(0xCA97, case as u64);
        lists.push(list(random, style(case, RANDOM_LISTS)));
    }
    lists
}

fn replay(name: &str, coverage: &mut Coverage) {
    let frames = frames(name);
    for filters in lists() {
        let Some(states) = records(&filters, 300).map(|records| records.len()) else { continue };
        let mut table = vec![7; states * RECORD_WORDS];
        let mut scratch = vec![7; states * library().scratch_words()];
        let built = library().build(&words(&filters), &mut table, &mut scratch);
        assert_eq!((built.refusal, built.number as usize), (0, states));
        coverage.lists += 1;
        coverage.built += 1;
        coverage.states += states as u64;
        for frame in &frames {
            let checked = demands::check(&filters, frame, coverage, |allowance| {
                library().classify(&frame.bytes, frame.port, &table, states as u32, allowance)
            });
            checked.unwrap_or_else(|text| panic!("{text}"));
        }
    }
}

/// A relation of bytes of the transport part in TCP or UDP.
fn ports(relation: &str) -> String {
    format!("tcp{relation} or udp{relation}")
}

/// Rules as tests of one filter and as an expression of libpcap, whose `tcp`, `udp` and `icmp` with
/// brackets find the transport part, and none in a later fragment.
fn rules() -> Vec<(Vec<Test>, String)> {
    let tcp = test(EQUAL, 5, 255, 6);
    let left = 0x0A4D_0001;
    let rule = |tests: &[Test], expression: String| (tests.to_vec(), expression);
    vec![
        rule(&[test(EQUAL, 0, 0xFFFF, 0x0806)], "arp".into()),
        rule(&[test(EQUAL, 0, 0xFFFF, 0x86DD)], "ip6".into()),
        rule(&[test(EQUAL, 0, 0xFFFF, 0x0800)], "ip".into()),
        rule(&[test(AT_LEAST, 0, 0, 0x0801)], "ether[12:2] > 0x0800".into()),
        rule(&[test(EQUAL, 1, 0xFC, 0xB8)], "ip[1] & 0xfc = 0xb8".into()),
        rule(&[test(AT_LEAST, 2, 0, 500)], "ip[2:2] >= 500".into()),
        rule(&[test(DIFFERS, 3, 0x3FFF, 0)], "ip[6:2] & 0x3fff != 0".into()),
        rule(&[test(AT_MOST, 4, 0, 1)], "ip[8] <= 1".into()),
        rule(&[test(EQUAL, 6, u32::MAX, left)], "ip src 10.77.0.1".into()),
        rule(&[test(EQUAL, 7, 0xFFFF_FF00, 0x0A4D_0000)], "ip dst net 10.77.0.0/24".into()),
        rule(&[test(DIFFERS, 7, u32::MAX, left)], "ip and not ip dst 10.77.0.1".into()),
        rule(&[test(EQUAL, 9, 0xFFFF, 8080)], ports("[2:2] = 8080")),
        rule(&[test(AT_MOST, 8, 0, 1023)], ports("[0:2] <= 1023")),
        rule(&[test(DIFFERS, 9, 0xFFFF, 53)], ports("[2:2] != 53")),
        rule(&[tcp, test(EQUAL, 10, 0x12, 0x02)], "tcp[13] & 0x12 = 2".into()),
        rule(&[test(EQUAL, 11, 255, 8)], "icmp[0] = 8".into()),
        rule(&[test(EQUAL, 11, 255, 3), test(EQUAL, 12, 255, 3)], "icmp[0:2] = 0x0303".into()),
        rule(&[test(AT_LEAST, 11, 0, 0)], "icmp[0] >= 0".into()),
        rule(&[test(DIFFERS, 3, 0x1FFF, 0)], "ip[6:2] & 0x1fff != 0".into()),
    ]
}

fn against_libpcap() -> Ended {
    let helper = match with_libpcap("match") {
        Ok(helper) => helper,
        Err(why) => return Ended::Skipped(why),
    };
    for (tests, expression) in rules() {
        let filter = Filter { group: 0, level: 0, tests };
        let mut taken = 0;
        for (name, ..) in CAPTURES {
            let path = file(&format!("{name}.pcap"));
            let output = run(Command::new(&helper).arg(path).arg(&expression));
            let theirs = String::from_utf8_lossy(&output.stdout).trim().to_string();
            let ours: String = frames(name)
                .iter()
                .map(|frame| filter_holds(&filter, &read(&frame.bytes, frame.port)))
                .map(|holds| if holds { '1' } else { '0' })
                .collect();
            assert_eq!(ours, theirs, "{name}: scanner and libpcap's {expression}");
            taken += ours.matches('1').count();
        }
        assert!(taken > 0, "no frame for {expression}");
    }
    Ended::Passed
}
