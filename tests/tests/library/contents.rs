//! Job contents do not steer the box (document 02, P9): each byte behind those that may steer is
//! changed, and every call that takes a frame answers as before. That such a change could be seen is
//! shown by changing the bytes that may steer, which each call notices often.

use filterbox_sys::{Field, Lamp, Scanned};
use filterbox_tests::cases::OTHER_CONTENTS;
use filterbox_tests::demands::describe;
use filterbox_tests::examples::test;
use filterbox_tests::fields::{
    later_fragment, read, steering, ETHERNET, FIELDS, ICMP, IPV4, IP_HEADER, TCP, UDP,
};
use filterbox_tests::frames::{compose, hand_made, noise, towards, Frame, Layout};
use filterbox_tests::gateway::{Judged, Setting, ALLOWANCE, DIVERT, FULL, PASS, TALLIES};
use filterbox_tests::library::library;
use filterbox_tests::random::Random;
use filterbox_tests::rules::{words, Filter, AT_LEAST, EQUAL};
use filterbox_tests::runner::Runner;
use filterbox_tests::sizes::MOST_FRAME;
use filterbox_tests::walker::Answer;

use crate::damage::foreign_record;
use crate::gateway::{built, some_verdicts, table_of};

const SEED: u64 = 0x10BB;
const FRAMES_A_LIST: usize = 6;
/// The last is enough for a gateway.
const ALLOWANCES: [u32; 5] = [0, 1, 3, 9, ALLOWANCE];
/// The calls that take a frame: field, classify, scan, lamp, judge.
const CALLS: usize = 5;

/// What the changes have met; the run prints it at its end.
#[derive(Default, Debug)]
pub struct Met {
    /// Frames with other contents, by the frame's sort: no IPv4, IPv4 without its fields; with them a
    /// header with options, a later fragment, ICMP, TCP, UDP, another protocol.
    contents: [u64; 8],
    /// Bytes that may steer and were changed, and how many of these each call noticed.
    steering: u64,
    noticed: [u64; CALLS],
}

pub fn run(runner: &mut Runner) -> Met {
    let mut met = Met::default();
    runner.check("contents_of_random_frames_steer_nothing", || random_frames(&mut met));
    runner.check("contents_of_hand_made_frames_steer_nothing", || hand_made_frames(&mut met));
    runner.check("contents_of_the_longest_frames_steer_nothing", || longest_frames(&mut met));
    runner.check("the_last_byte_that_may_steer", last_byte);
    met
}

/// A table and its number of states.
type Table = (Vec<u32>, u32);

/// A list, its own table and one that nobody's builder would write, verdicts and tallies.
struct Shop {
    filters: Vec<Filter>,
    list: Vec<u32>,
    tables: [Table; 2],
    verdicts: Vec<u32>,
    standing: u32,
    tallies: [u32; TALLIES],
}

impl Shop {
    fn new(random: &mut Random, (filters, table, states): (Vec<Filter>, Vec<u32>, u32)) -> Shop {
        let foreign = (0..states).flat_map(|_| foreign_record(random, states)).collect();
        Shop {
            list: words(&filters),
            filters,
            tables: [(table, states), (foreign, states)],
            verdicts: some_verdicts(random).to_vec(),
            standing: random.below(3) as u32,
            tallies: [0; TALLIES].map(|_: u32| random.pick(&[0, 7, FULL - 1, FULL])),
        }
    }

    /// What every call that takes a frame answers, and the tallies that judging leaves.
    fn answers(&self, frame: &Frame) -> Answers {
        let Frame { bytes, port } = frame;
        let walks = |(table, states): &Table| {
            ALLOWANCES.map(|a| library().classify(bytes, *port, table, *states, a))
        };
        let lamp =
            |(table, states): &Table| library().lamp(&self.list, bytes, *port, table, *states);
        let judge = |(table, states): &Table| {
            let (verdicts, mut tallies) = (&self.verdicts, self.tallies);
            let by = Setting { table, states: *states, verdicts, standing: self.standing };
            (library().judge(frame, &by, &mut tallies), tallies)
        };
        Answers {
            fields: (0..=FIELDS as u32).map(|n| library().field(bytes, *port, n)).collect(),
            walks: self.tables.each_ref().map(walks),
            scanned: library().scan(&self.list, bytes, *port),
            lamps: self.tables.each_ref().map(lamp),
            judged: self.tables.each_ref().map(judge),
        }
    }
}

#[derive(PartialEq, Eq, Debug)]
struct Answers {
    fields: Vec<Field>,
    walks: [[Answer; ALLOWANCES.len()]; 2],
    scanned: Scanned,
    lamps: [Lamp; 2],
    judged: [(Judged, [u32; TALLIES]); 2],
}

impl Answers {
    /// Which calls answer otherwise, in the order of `CALLS`.
    fn others(&self, other: &Answers) -> [bool; CALLS] {
        [
            self.fields != other.fields,
            self.walks != other.walks,
            self.scanned != other.scanned,
            self.lamps != other.lamps,
            self.judged != other.judged,
        ]
    }
}

/// The frame's sort, by its place in `Met`.
fn sort(bytes: &[u8]) -> usize {
    let readings = read(bytes, 0);
    match (readings[5], readings[0]) {
        (None, Some(IPV4)) => 1,
        (None, _) => 0,
        (Some(_), _) if bytes[ETHERNET] != 0x45 => 2,
        (Some(_), _) if later_fragment(&readings) => 3,
        (Some(ICMP), _) => 4,
        (Some(TCP), _) => 5,
        (Some(UDP), _) => 6,
        (Some(_), _) => 7,
    }
}

/// The frame with another byte at a place.
fn changed(frame: &Frame, at: usize, byte: u8) -> Frame {
    let mut frame = frame.clone();
    frame.bytes[at] = byte;
    frame
}

/// The frame with other contents: all at once, by the opposite of each byte and by any.
fn refilled(frame: &Frame, random: &mut Random) -> Vec<Frame> {
    let (mut opposite, mut any) = (frame.clone(), frame.clone());
    for byte in steering(&frame.bytes)..frame.bytes.len() {
        opposite.bytes[byte] ^= 0xFF;
        any.bytes[byte] = random.byte();
    }
    vec![opposite, any]
}

/// The frame with one byte of its contents changed, for each of them in so many ways.
fn one_changed(frame: &Frame, ways: usize, random: &mut Random) -> Vec<Frame> {
    let mut others = Vec::new();
    for (at, &byte) in frame.bytes.iter().enumerate().skip(steering(&frame.bytes)) {
        let any = random.between(1, 255) as u8;
        others.extend([any, 1, 0xFF][..ways].iter().map(|bits| changed(frame, at, byte ^ bits)));
    }
    others
}

/// The frame with every value of the first byte behind those that may steer, if it has one.
fn every_value(frame: &Frame) -> Vec<Frame> {
    let at = steering(&frame.bytes);
    let values = if at < frame.bytes.len() { 0..=255 } else { 1..=0 };
    values.map(|byte| changed(frame, at, byte)).collect()
}

/// No call answers otherwise for frames with other contents.
fn check(shop: &Shop, frame: &Frame, others: &[Frame], met: &mut Met) {
    let before = shop.answers(frame);
    for other in others {
        let after = shop.answers(other);
        assert!(
            before == after,
            "{before:?}\nwith other contents {after:?}\n{}\nother {}",
            describe(&shop.list, frame),
            describe(&[], other)
        );
    }
    met.contents[sort(&frame.bytes)] += others.len() as u64;
}

/// Each byte that may steer takes another value: the calls that answer otherwise are counted.
fn count_steering(shop: &Shop, frame: &Frame, random: &mut Random, met: &mut Met) {
    let before = shop.answers(frame);
    for (at, &byte) in frame.bytes.iter().enumerate().take(steering(&frame.bytes)) {
        let other = changed(frame, at, byte.wrapping_add(random.between(1, 255) as u8));
        met.steering += 1;
        let noticed = before.others(&shop.answers(&other));
        for (count, noticed) in met.noticed.iter_mut().zip(noticed) {
            *count += u64::from(noticed);
        }
    }
}

/// A frame towards a list with some more contents, of which the packet has all, or which pad it.
fn frame_with_contents(random: &mut Random, filters: &[Filter]) -> Frame {
    let mut frame = if random.once_in(12) { noise(random) } else { towards(random, filters) };
    let bytes = &mut frame.bytes;
    for _ in 0..random.pick(&[0, 1, 2, 30]) {
        bytes.push(random.byte());
    }
    bytes.truncate(160);
    if !random.once_in(3) && bytes.len() > ETHERNET + IP_HEADER {
        let total = (bytes.len() - ETHERNET) as u16;
        bytes[ETHERNET + 2..ETHERNET + 4].copy_from_slice(&total.to_be_bytes());
    }
    frame
}

fn random_frames(met: &mut Met) {
    for case in 0..OTHER_CONTENTS.count() {
        let random = &mut Random::case(SEED, case as u64);
        let list = built(random, case);
        let shop = Shop::new(random, list);
        for turn in 0..FRAMES_A_LIST {
            let frame = frame_with_contents(random, &shop.filters);
            check(&shop, &frame, &refilled(&frame, random), met);
            check(&shop, &frame, &one_changed(&frame, 3, random), met);
            if turn == 0 {
                check(&shop, &frame, &every_value(&frame), met);
            }
            count_steering(&shop, &frame, random, met);
        }
    }
    let Met { contents, steering, noticed } = met;
    assert!(contents.iter().all(|&count| count > 100), "{contents:?}");
    // Half of the bytes that may steer are in no field: card addresses, checksums, options. A list
    // asks of a few fields alone.
    assert!(noticed[0] * 4 > *steering, "{noticed:?} of {steering}");
    assert!(noticed.iter().all(|&count| count * 20 > *steering), "{noticed:?} of {steering}");
}

/// A list that asks every byte of the transport header that is in a field, and whether others are there.
fn asking_list() -> Vec<Filter> {
    let tests = [
        test(EQUAL, 10, 0xFF, 0x12),
        test(EQUAL, 9, 0xFFFF, 0x238C),
        test(EQUAL, 8, 0x00FF, 3),
        test(EQUAL, 11, 0xFF, 8),
        test(AT_LEAST, 12, 0, 3),
        test(AT_LEAST, 5, 0, 0),
        test(AT_LEAST, 0, 0, 1536),
    ];
    let alone = |(i, test)| Filter { group: i as u32 + 1, level: 0, tests: vec![test] };
    tests.into_iter().enumerate().map(alone).collect()
}

/// The shop of a list that asks of many fields.
fn asking_shop(random: &mut Random) -> Shop {
    Shop::new(random, table_of(asking_list(), 400).expect("few states"))
}

fn hand_made_frames(met: &mut Met) {
    let random = &mut Random::new(SEED);
    let shop = asking_shop(random);
    for (_, frame) in hand_made() {
        check(&shop, &frame, &refilled(&frame, random), met);
        check(&shop, &frame, &one_changed(&frame, 1, random), met);
    }
}

/// Frames of 1,521 to 1,523 bytes: TCP with a job behind its header, a later fragment, and no IPv4.
/// Each byte alone in one of them.
fn longest_frames(met: &mut Met) {
    let random = &mut Random::new(SEED ^ 1);
    let shop = asking_shop(random);
    for length in [MOST_FRAME - 1, MOST_FRAME, MOST_FRAME + 1] {
        for (ethertype, place) in [(IPV4, 0), (IPV4, 185), (0x0806, 0)] {
            let mut wishes = [None; FIELDS];
            (wishes[0], wishes[3], wishes[5]) = (Some(ethertype), Some(place), Some(TCP));
            let frame = compose(&wishes, &Layout::plain(length - ETHERNET - IP_HEADER));
            assert_eq!(frame.bytes.len(), length);
            check(&shop, &frame, &refilled(&frame, random), met);
            if (length, ethertype, place) == (MOST_FRAME, IPV4, 0) {
                check(&shop, &frame, &one_changed(&frame, 1, random), met);
            }
        }
    }
}

/// The TCP flags are the last byte that may steer. They do, at every header length and in every call;
/// the byte behind them does not.
fn last_byte() {
    let random = &mut Random::new(SEED ^ 2);
    let filters = vec![Filter { group: 1, level: 0, tests: vec![test(EQUAL, 10, 0xFF, 0x12)] }];
    let mut shop = Shop::new(random, table_of(filters, 3).expect("three states"));
    shop.tables[1] = shop.tables[0].clone();
    (shop.verdicts[0], shop.standing, shop.tallies) = (DIVERT, PASS, [7; TALLIES]);
    for header in 5..=15 {
        let mut wishes = [None; FIELDS];
        wishes[10] = Some(0x12);
        let frame = compose(&wishes, &Layout { header, ..Layout::plain(15) });
        let last = ETHERNET + 4 * usize::from(header) + 13;
        assert_eq!(steering(&frame.bytes), last + 1);
        let before = shop.answers(&frame);
        for byte in [0x00, 0x02, 0x10, 0x13, 0x92, 0xFF] {
            let other = shop.answers(&changed(&frame, last, byte));
            assert_eq!(before.others(&other), [true; CALLS], "flags {byte}");
            assert_eq!(before, shop.answers(&changed(&frame, last + 1, byte)));
        }
    }
}
