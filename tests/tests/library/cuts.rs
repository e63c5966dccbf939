//! Fields that are missing and fields that were cut off (document 02, P7): each field of frames that
//! end at every length, against a search for longer frames; and the mark of walks.

use std::collections::BTreeSet;
use std::fs;

use filterbox_tests::builder::{record, RECORD_WORDS};
use filterbox_tests::coverage::Coverage;
use filterbox_tests::cut::{glance, search, seen, Seen};
use filterbox_tests::examples::{test, ECHO_RECORDS};
use filterbox_tests::fields::{read, FIELDS, ICMP, NAMES, TCP, UDP};
use filterbox_tests::frames::{echo_request, fragment, hand_made, noise, Frame};
use filterbox_tests::library::library;
use filterbox_tests::random::Random;
use filterbox_tests::rules::{words, Filter, AT_LEAST, EQUAL};
use filterbox_tests::runner::Runner;
use filterbox_tests::tools::root;
use filterbox_tests::walker::{Answer, DONE, MOST_FRAME, REFUSED, STOPPED};

use crate::support::{build_in_slots, classify_noted, Outcome};

const SEED: u64 = 0xC07;

/// The kinds of the C interface.
const NONE: u32 = 0;
const VALUE: u32 = 1;
const CUT: u32 = 2;

pub fn run(runner: &mut Runner, coverage: &mut Coverage) {
    runner.check("fields_of_frames_cut_at_every_length", every_length);
    runner.check("fields_with_every_byte_that_decides", every_byte);
    runner.check("fields_of_random_frames_cut_anywhere", random_frames);
    runner.check("fields_of_frames_of_any_length", any_length);
    runner.check("marks_of_walks_that_ask_one_field", || marks_of_one(coverage));
    runner.check("marks_of_walks_over_cut_frames", || marks(coverage));
    runner.check("marks_count_questions_whose_way_was_taken", || taken(coverage));
    runner.check("a_refusal_has_no_mark", || refusals(coverage));
    runner.check("fields_and_marks_of_the_page", || page(coverage));
}

/// How often each field was a value, none and cut.
type Met = [[u64; 3]; FIELDS];

/// Every field of a frame, and numbers above the last, as a search for longer frames tells it.
fn check(bytes: &[u8], port: u8, met: &mut Met) {
    let readings = read(bytes, port);
    let found = search(bytes);
    assert_eq!(found, glance(bytes), "{bytes:02x?}: the reference's two ways");
    for number in (0..FIELDS as u32 + 3).chain([31, 32, 33, u32::MAX]) {
        let got = library().field(bytes, port, number);
        let (kind, value) = match seen(&readings, &found, number) {
            Seen::Value(x) => (VALUE, x),
            Seen::None => (NONE, 0),
            Seen::Cut => (CUT, 0),
        };
        assert_eq!((got.kind, got.value), (kind, value), "field {number} of {bytes:02x?}");
        if let Some(field) = met.get_mut(number as usize) {
            field[kind as usize] += 1;
        }
    }
}

/// Whole packets of each protocol with short and long headers, padded and not.
fn packets() -> Vec<Vec<u8>> {
    let mut packets = Vec::new();
    for protocol in [ICMP, TCP, UDP, 2] {
        for words in [5u8, 6, 15] {
            for (part, padding) in [(0, 0), (1, 9), (3, 20), (4, 0), (13, 20), (14, 0), (20, 7)] {
                let total = 4 * usize::from(words) + part;
                let mut bytes: Vec<u8> = (0..14 + total + padding).map(|i| i as u8).collect();
                bytes[12..15].copy_from_slice(&[8, 0, 0x40 | words]);
                bytes[16..18].copy_from_slice(&(total as u16).to_be_bytes());
                bytes[20..22].copy_from_slice(&[0x40, 0]);
                bytes[23] = protocol as u8;
                packets.push(bytes);
            }
        }
    }
    packets
}

/// What frames begin with that were made by hand, packets, first and later fragments: every length of
/// each, and none twice.
fn beginnings() -> Vec<Frame> {
    let mut frames: Vec<Vec<u8>> = hand_made().into_iter().map(|(_, frame)| frame.bytes).collect();
    frames.extend(packets());
    frames
        .extend([0, 1, 0x2000, 0x1FFF, 0x20FF, 0x0100].map(|place| fragment(place, TCP, 5).bytes));
    let cut = |bytes: &Vec<u8>| (0..=bytes.len()).map(|n| bytes[..n].to_vec()).collect::<Vec<_>>();
    let all: BTreeSet<Vec<u8>> = frames.iter().flat_map(cut).collect();
    all.into_iter().map(|bytes| Frame { bytes, port: 3 }).collect()
}

fn every_length() {
    let met = &mut Met::default();
    for frame in beginnings() {
        check(&frame.bytes, frame.port, met);
    }
    all_kinds(met);
}

/// Each field was none, a value and cut; the box port is given with every frame.
fn all_kinds(met: &Met) {
    for (field, [none, value, cut]) in met.iter().enumerate() {
        let some = *value > 0 && (field == 13 || *none > 0 && *cut > 0);
        assert!(some, "{}: {none} none, {value} values, {cut} cut", NAMES[field]);
    }
}

/// Each value of each byte that could decide, at lengths about it.
fn every_byte() {
    let met = &mut Met::default();
    for packet in [&packets()[3], &packets()[9], &packets()[17]] {
        for at in [12, 13, 14, 16, 17, 20, 21, 23] {
            for value in 0..=255 {
                let mut bytes = packet.clone();
                if let Some(byte) = bytes.get_mut(at) {
                    *byte = value;
                }
                for length in [at, at + 1, at + 2, 34, bytes.len()] {
                    check(&bytes[..length.min(bytes.len())], 0, met);
                }
            }
        }
    }
}

fn random_frames() {
    let random = &mut Random::new(SEED);
    let met = &mut Met::default();
    let packets = packets();
    for _ in 0..4_000 {
        let mut bytes = packets[random.below(packets.len())].clone();
        for _ in 0..random.below(3) {
            let at = [12, 13, 14, 16, 17, 20, 21, 23][random.below(8)];
            if let Some(byte) = bytes.get_mut(at) {
                *byte = random.below(256) as u8;
            }
        }
        bytes.truncate(random.below(bytes.len() + 1));
        check(&bytes, random.below(256) as u8, met);
    }
    for _ in 0..500 {
        let frame = noise(random);
        check(&frame.bytes[..frame.bytes.len().min(120)], frame.port, met);
    }
}

/// Reading a field refuses no length.
fn any_length() {
    let met = &mut Met::default();
    let greatest = 14 + usize::from(u16::MAX);
    for length in [MOST_FRAME, MOST_FRAME + 1, 4_000, greatest - 1, greatest, 70_000] {
        for total in [40u16, 1_508, 1_509, 3_986, 0xFFFF] {
            let mut bytes = vec![7; length];
            bytes[12..15].copy_from_slice(&[8, 0, 0x45]);
            bytes[16..18].copy_from_slice(&total.to_be_bytes());
            bytes[20..24].copy_from_slice(&[0, 0, 9, TCP as u8]);
            check(&bytes, 1, met);
        }
    }
}

/// A table that asks of these fields in turn whether they are there, one filter a field.
fn asks(fields: &[u32], coverage: &mut Coverage) -> Outcome {
    let alone =
        |&field| Filter { group: field, level: 0, tests: vec![test(AT_LEAST, field, 0, 0)] };
    let filters: Vec<Filter> = fields.iter().map(alone).collect();
    build_in_slots(&words(&filters), 255, coverage)
}

/// Each field asked alone of every beginning: the mark is that of the field, and there is none before
/// the question is asked. Support compares each answer with the reference's walk as well.
fn marks_of_one(coverage: &mut Coverage) {
    let met = &mut Met::default();
    let frames: Vec<Frame> =
        beginnings().into_iter().filter(|frame| frame.bytes.len() <= 100).collect();
    for field in 0..FIELDS as u32 {
        let built = asks(&[field], coverage);
        for frame in &frames {
            let kind = library().field(&frame.bytes, frame.port, field).kind;
            for allowance in [0, 1] {
                let answer =
                    classify_noted(frame, &built.table, built.states(), allowance, coverage);
                let should = u32::from(allowance == 1 && kind == CUT);
                assert_eq!(
                    answer.cut, should,
                    "field {field}, allowance {allowance}: {frame:02x?}"
                );
            }
            met[field as usize][kind as usize] += 1;
        }
    }
    all_kinds(met);
}

/// Every allowance over every prefix of whole packets. A greater allowance never clears the mark, and
/// each question that can be the first to meet a cut field is so: both ports are cut or none is.
fn marks(coverage: &mut Coverage) {
    let fields = [0, 5, 8, 9, 10, 11, 12];
    let built = asks(&fields, coverage);
    let mut first = [0u64; 8];
    for packet in packets() {
        for length in 0..=packet.len() {
            let frame = Frame { bytes: packet[..length].to_vec(), port: 0 };
            let marks = [0, 1, 2, 3, 4, 5, 6, 7, 8].map(|allowance| {
                classify_noted(&frame, &built.table, built.states(), allowance, coverage).cut
            });
            assert!(marks.windows(2).all(|pair| pair[0] <= pair[1]), "{marks:?} for {frame:02x?}");
            let by = (1..marks.len()).find(|&allowance| marks[allowance] == 1);
            first[by.map_or(fields.len(), |allowance| allowance - 1)] += 1;
        }
    }
    for (question, &count) in first.iter().enumerate() {
        let second_port = fields.get(question) == Some(&9);
        assert_eq!(count == 0, second_port, "first marked by each question, or by none: {first:?}");
    }
}

/// A UDP frame cut before its ports: the first question meets no cut field, the second one does.
fn taken(coverage: &mut Coverage) {
    let mut bytes = packets()[17].clone();
    bytes[23] = UDP as u8;
    let frame = Frame { bytes: bytes[..30].to_vec(), port: 9 };
    let filters = [
        Filter { group: 0, level: 0, tests: vec![test(EQUAL, 13, 255, 9)] },
        Filter { group: 1, level: 0, tests: vec![test(AT_LEAST, 9, 0, 0)] },
    ];
    let built = build_in_slots(&words(&filters), 16, coverage);
    let answer = |allowance, coverage: &mut Coverage| {
        classify_noted(&frame, &built.table, built.states(), allowance, coverage)
    };
    let expect = |ended, out, asked: u32, cut| {
        let sure = asked.min(1).into();
        Answer { ended, refusal: 0, sure, out, asked, cut }
    };
    assert_eq!(answer(0, coverage), expect(STOPPED, 0, 0, 0));
    assert_eq!(answer(1, coverage), expect(STOPPED, 0, 1, 0));
    assert_eq!(answer(2, coverage), expect(DONE, 2, 2, 1));
}

/// A table whose second record is damaged, behind a question that meets a cut field.
fn refusals(coverage: &mut Coverage) {
    let frame = Frame { bytes: vec![0; 10], port: 0 };
    let behind = [9; RECORD_WORDS];
    let damaged = [record([1, 0, 1, 0], [1, 1, 1], 0, 0), behind].concat();
    let away = [record([1, 0, 1, 0], [1, 1, 7], 0, 0), behind].concat();
    let refused = Answer { ended: REFUSED, refusal: 13, sure: 0, out: 0, asked: 0, cut: 0 };
    for table in [&damaged, &away] {
        for allowance in [1, 2, u32::MAX] {
            assert_eq!(classify_noted(&frame, table, 2, allowance, coverage), refused);
        }
    }
    let long = Frame { bytes: vec![0; MOST_FRAME + 1], port: 0 };
    let refused = Answer { refusal: 12, ..refused };
    assert_eq!(classify_noted(&long, &damaged, 2, 5, coverage), refused);
}

/// The tables and the walk of the technicians' page are what the library answers.
fn page(coverage: &mut Coverage) {
    let page = fs::read_to_string(root().join("docs/TECHNICIANS.md")).expect("the page");
    let echo = echo_request(1).bytes;
    let changed = |at: usize, bytes: &[u8]| {
        let mut frame = echo.clone();
        frame[at..at + bytes.len()].copy_from_slice(bytes);
        frame
    };
    let mut padded = changed(23, &[UDP as u8]);
    padded[16..18].copy_from_slice(&[0, 23]);
    padded.resize(60, 0);
    let mut later = changed(23, &[UDP as u8]);
    later[20..22].copy_from_slice(&[0, 1]);
    let mut arp = changed(12, &[8, 6]);
    arp.resize(60, 0);
    for (name, frame) in [
        ("its first 20 bytes", &echo[..20]),
        ("its first 24 bytes", &echo[..24]),
        ("its first 34 bytes", &echo[..34]),
        ("all 42 bytes", &echo),
        ("UDP, total length 23, padded to 60 bytes", &padded),
        ("UDP, a later fragment", &later),
        ("ARP, 60 bytes", &arp),
    ] {
        let start = format!("| {name}");
        let row = page.lines().find(|line| line.starts_with(&start)).expect(name);
        let cells: Vec<&str> = row.split('|').skip(2).map(str::trim).collect();
        for (number, cell) in [5, 9, 11].into_iter().zip(cells) {
            let field = library().field(frame, 0, number);
            let word = match field.kind {
                NONE => "none".to_string(),
                CUT => "cut".to_string(),
                _ => field.value.to_string(),
            };
            assert_eq!(cell.split([':', ' ']).next(), Some(&word[..]), "field {number}: {row}");
        }
    }
    for (bytes, cut) in [(echo[..34].to_vec(), 1), (arp, 0)] {
        let frame = Frame { bytes, port: 0 };
        let answer = classify_noted(&frame, &ECHO_RECORDS.concat(), 10, 4, coverage);
        assert_eq!(answer, Answer { ended: DONE, refusal: 0, sure: 0, out: 7, asked: 2, cut });
    }
    assert!(page.contains("sure {}, out {0, 1, 2}, 2 questions, cut 1"));
}
