//! The header fields as the library reads them, brought to light by tables: one tells which fields
//! are present, another shows a field's bits one by one.

use filterbox_tests::builder::RECORD_WORDS;
use filterbox_tests::coverage::Coverage;
use filterbox_tests::examples::{test, ECHO};
use filterbox_tests::fields::{read, Readings, FIELDS, ICMP, IPV4, TCP, UDP, WIDTHS};
use filterbox_tests::frames::{
    compose, echo_request, fragment, hand_made, noise, towards, Frame, Layout,
};
use filterbox_tests::random::Random;
use filterbox_tests::rules::{words, Filter, Test, AT_LEAST, EQUAL};
use filterbox_tests::runner::Runner;
use filterbox_tests::walker::{Answer, DONE, MOST_FRAME, REFUSED};

use crate::support::{build_in_slots, classify_noted, Outcome};

const SEED: u64 = 0xF1E1D5;

pub fn run(runner: &mut Runner, coverage: &mut Coverage) {
    runner.check("fields_of_hand_made_frames", || hand_made_frames(coverage));
    runner.check("frame_lengths_0_to_1522", || every_length(coverage));
    runner.check("frames_longer_than_1522_bytes", || long_frames(coverage));
    runner.check("fields_of_random_frames", || random_frames(coverage));
    runner.check("each_first_byte_of_an_ip_header", || first_bytes(coverage));
    runner.check("each_length_of_header_packet_and_transport", || lengths(coverage));
    runner.check("each_ethertype", || ethertypes(coverage));
    runner.check("each_protocol_and_each_box_port", || protocols_and_ports(coverage));
    runner.check("later_fragments_have_no_transport_fields", || fragments(coverage));
}

/// Tables through which the fields of a frame can be seen.
struct Lamps {
    /// Fields 0 to 6 and 7 to 13: is a number at least 0 there?
    presence: Vec<(usize, Outcome)>,
    /// For each field and each of its bytes, from the lowest: its eight bits.
    bytes: Vec<(usize, u32, Outcome)>,
}

fn in_groups_of_their_own(tests: Vec<Test>) -> Vec<u32> {
    let alone = |(group, test)| Filter { group: group as u32, level: 0, tests: vec![test] };
    let filters: Vec<Filter> = tests.into_iter().enumerate().map(alone).collect();
    words(&filters)
}

impl Lamps {
    fn new(coverage: &mut Coverage) -> Lamps {
        let presence = [0, 7]
            .map(|first| {
                let tests = (first..first + 7).map(|field| test(AT_LEAST, field as u32, 0, 0));
                let list = in_groups_of_their_own(tests.collect());
                (first, build_in_slots(&list, 255, coverage))
            })
            .into();
        let mut bytes = Vec::new();
        for (field, width) in WIDTHS.into_iter().enumerate() {
            for shift in (0..width).step_by(8) {
                let bits = (shift..shift + 8).map(|i| 1u32 << i);
                let tests = bits.map(|bit| test(EQUAL, field as u32, bit, bit));
                let list = in_groups_of_their_own(tests.collect());
                bytes.push((field, shift, build_in_slots(&list, 511, coverage)));
            }
        }
        Lamps { presence, bytes }
    }

    /// The fields as the library's answers show them.
    fn look(&self, frame: &Frame, coverage: &mut Coverage) -> Readings {
        let mut readings = [None; FIELDS];
        for (first, built) in &self.presence {
            let sure = self.sure(frame, built, coverage);
            for field in (*first..first + 7).filter(|field| sure >> (field - first) & 1 == 1) {
                readings[field] = Some(0);
            }
        }
        for (field, shift, built) in &self.bytes {
            let sure = self.sure(frame, built, coverage);
            match &mut readings[*field] {
                Some(x) => *x |= sure << shift,
                None => assert_eq!(sure, 0, "bits of field {field}, which is absent"),
            }
        }
        readings
    }

    fn sure(&self, frame: &Frame, built: &Outcome, coverage: &mut Coverage) -> u32 {
        let answer = classify_noted(frame, &built.table, built.states(), u32::MAX, coverage);
        assert_eq!(answer.ended, DONE);
        answer.sure as u32
    }

    fn check(&self, name: &str, frame: &Frame, coverage: &mut Coverage) -> Readings {
        coverage.frame(frame);
        let seen = self.look(frame, coverage);
        let should = read(&frame.bytes, frame.port);
        assert_eq!(seen, should, "{name}: {:02x?}, port {}", frame.bytes, frame.port);
        seen
    }
}

fn hand_made_frames(coverage: &mut Coverage) {
    let lamps = Lamps::new(coverage);
    for (name, frame) in hand_made() {
        lamps.check(name, &frame, coverage);
    }
}

/// A TCP or UDP packet that fills a frame of so many bytes, as far as it goes.
fn packet(length: usize, header: u8, random: &mut Random) -> Frame {
    let mut wishes = [None; FIELDS];
    wishes[5] = Some(random.pick(&[TCP, UDP]));
    let used = 14 + 4 * usize::from(header);
    let filler = (0..61).map(|_| random.byte()).collect();
    let transport = length.saturating_sub(used);
    let layout = Layout { version: 4, header, transport, padding: 0, filler };
    let mut frame = compose(&wishes, &layout);
    frame.bytes.truncate(length);
    frame
}

fn every_length(coverage: &mut Coverage) {
    let lamps = Lamps::new(coverage);
    let random = &mut Random::new(SEED);
    for length in 0..=MOST_FRAME {
        let frame = packet(length, 5, random);
        lamps.check("fits", &frame, coverage);
        let header = random.between(5, 15) as u8;
        lamps.check("options", &packet(length, header, random), coverage);
        // A byte more than the frame has, and padding of a few bytes.
        for total in [(length + 1).saturating_sub(14), length.saturating_sub(14 + length % 7)] {
            let mut odd = frame.clone();
            if length >= 18 {
                odd.bytes[16..18].copy_from_slice(&(total as u16).to_be_bytes());
            }
            lamps.check("another total length", &odd, coverage);
        }
    }
}

fn long_frames(coverage: &mut Coverage) {
    let built = build_in_slots(&ECHO, 10, coverage);
    let random = &mut Random::new(SEED ^ 1);
    for length in [1522, 1523, 1524, 2000, 9000, 65_535, 65_536, 100_000] {
        let frame = packet(length.min(60_000), 5, random);
        let mut bytes = frame.bytes;
        bytes.resize(length, 0);
        let frame = Frame { bytes, port: 0 };
        for allowance in [0, 1, u32::MAX] {
            let answer = classify_noted(&frame, &built.table, 10, allowance, coverage);
            let refused = Answer { ended: REFUSED, refusal: 12, sure: 0, out: 0, asked: 0, cut: 0 };
            assert_eq!(answer == refused, length > MOST_FRAME, "{length} bytes: {answer:?}");
            // 12 comes before 13.
            let answer = classify_noted(&frame, &built.table, 0, allowance, coverage);
            assert_eq!(answer.refusal, if length > MOST_FRAME { 12 } else { 13 });
            let answer = classify_noted(&frame, &[9; RECORD_WORDS], 1, allowance, coverage);
            assert_eq!(answer.refusal, if length > MOST_FRAME { 12 } else { 13 });
        }
    }
}

fn random_frames(coverage: &mut Coverage) {
    let lamps = Lamps::new(coverage);
    for case in 0..4000 {
        let random = &mut Random::case(SEED ^ 2, case);
        let any = |field| test(EQUAL, field, 1, 1);
        let filter = Filter { group: 0, level: 0, tests: (0..8).map(|i| any(i + 5)).collect() };
        lamps.check("random", &towards(random, &[filter]), coverage);
        let mut noise = noise(random);
        lamps.check("noise", &noise, coverage);
        if noise.bytes.len() > 14 {
            noise.bytes[12..15].copy_from_slice(&[8, 0, 0x45]);
            lamps.check("noise behind an EtherType", &noise, coverage);
        }
    }
}

fn first_bytes(coverage: &mut Coverage) {
    let lamps = Lamps::new(coverage);
    for first in 0..=255 {
        for transport in [0, 20, 60] {
            let mut frame = packet(14 + 20 + transport, 5, &mut Random::new(SEED));
            frame.bytes[14] = first;
            lamps.check("first byte", &frame, coverage);
        }
    }
}

/// Header lengths 0 to 60 with total lengths around them, in a frame that is long enough.
fn lengths(coverage: &mut Coverage) {
    let lamps = Lamps::new(coverage);
    let random = &mut Random::new(SEED ^ 3);
    for header in 0..=15u8 {
        for total in 0..=90u16 {
            let mut frame = packet(14 + 84, 5, random);
            frame.bytes[14] = 0x40 | header;
            frame.bytes[16..18].copy_from_slice(&total.to_be_bytes());
            frame.bytes[23] = [1, 6, 17][usize::from(total) % 3];
            lamps.check("header and total length", &frame, coverage);
        }
    }
}

fn ethertypes(coverage: &mut Coverage) {
    let lamps = Lamps::new(coverage);
    let mut frame = echo_request(1);
    let near = [0, IPV4, 0x0801, 0x07FF, 1535, 1536, 1537, 0x0008, 0x8100, 0x86DD, 0xFFFF];
    let some = (0..65_536).step_by(251);
    for ethertype in near.into_iter().chain(some) {
        frame.bytes[12..14].copy_from_slice(&(ethertype as u16).to_be_bytes());
        lamps.check("EtherType", &frame, coverage);
        let bare = Frame { bytes: frame.bytes[..14].to_vec(), port: 1 };
        lamps.check("EtherType alone", &bare, coverage);
    }
}

fn protocols_and_ports(coverage: &mut Coverage) {
    let lamps = Lamps::new(coverage);
    for number in 0..=255 {
        let mut frame = packet(74, 5, &mut Random::new(u64::from(number)));
        frame.bytes[23] = number;
        frame.port = number;
        lamps.check("protocol", &frame, coverage);
    }
}

/// All flags with each bit of the offset alone, with none and with many; with and without options.
fn fragments(coverage: &mut Coverage) {
    let lamps = Lamps::new(coverage);
    let offsets = (0..13).map(|bit| 1 << bit).chain([0, 3, 185, 370, 8190, 8191]);
    for place in offsets.flat_map(|offset| (0..8).map(move |flags| flags << 13 | offset)) {
        for header in [5, 6, 15] {
            each_protocol_in_a_fragment(&lamps, place, header, coverage);
        }
    }
}

/// What must be there is said here once more, apart from the reference.
fn each_protocol_in_a_fragment(lamps: &Lamps, place: u32, header: u8, coverage: &mut Coverage) {
    for (protocol, fields) in [(ICMP, vec![11, 12]), (TCP, vec![8, 9, 10]), (UDP, vec![8, 9])] {
        let seen = lamps.check("fragment", &fragment(place, protocol, header), coverage);
        let there: Vec<usize> = (8..=12).filter(|&field| seen[field].is_some()).collect();
        let should = if place % 8192 == 0 { fields } else { Vec::new() };
        assert_eq!((seen[3], there), (Some(place), should), "field 3 is {place:#06x}");
    }
}
