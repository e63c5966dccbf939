//! Frames made for a list: they satisfy its tests, or nearly, or are short or odd.

use crate::fields::{full, ETHERNET, FIELDS, ICMP, IPV4, IP_HEADER, OFFSET, TCP, UDP};
use crate::random::Random;
use crate::rules::{Filter, Test, AT_LEAST, AT_MOST, DIFFERS, EQUAL};
use crate::walker::MOST_FRAME;

/// Flags of field 3, above its offset.
pub const MORE_FRAGMENTS: u32 = 0x2000;
pub const DONT_FRAGMENT: u32 = 0x4000;

/// A frame and the port it came in at.
#[derive(Clone, PartialEq, Eq, Debug)]
pub struct Frame {
    pub bytes: Vec<u8>,
    pub port: u8,
}

/// The values that a frame's fields should have; the others are filled in.
pub type Wishes = [Option<u32>; FIELDS];

/// How a frame is laid out, apart from its fields.
#[derive(Clone, Debug)]
pub struct Layout {
    pub version: u8,
    /// The header's length in words of four bytes.
    pub header: u8,
    /// The bytes behind the IP header.
    pub transport: usize,
    /// The bytes behind the IP packet.
    pub padding: usize,
    /// What fills the bytes that no wish names, over and over.
    pub filler: Vec<u8>,
}

impl Layout {
    /// An ordinary packet with so many bytes behind its IP header.
    pub fn plain(transport: usize) -> Layout {
        Layout { version: 4, header: 5, transport, padding: 0, filler: vec![0] }
    }
}

/// Writes a number big-endian; bytes that would lie behind the frame's end are left away.
fn put(bytes: &mut [u8], at: usize, count: usize, number: u32) {
    let big_endian = number.to_be_bytes();
    for i in 0..count {
        if let Some(byte) = bytes.get_mut(at + i) {
            *byte = big_endian[4 - count + i];
        }
    }
}

/// A frame with these fields. What does not fit is left away: no wish is checked here. Without a wish
/// for field 3 the packet is whole, so that its transport part can be read.
pub fn compose(wishes: &Wishes, layout: &Layout) -> Frame {
    let header = 4 * usize::from(layout.header);
    let protocol = wishes[5].unwrap_or_else(|| protocol_for(wishes));
    let total = header + layout.transport;
    let length = ETHERNET + total + layout.padding;
    let mut bytes: Vec<u8> = layout.filler.iter().copied().cycle().take(length).collect();
    put(&mut bytes, 12, 2, wishes[0].unwrap_or(IPV4));
    put(&mut bytes, ETHERNET, 1, u32::from(layout.version << 4 | layout.header & 0x0F));
    put(&mut bytes, ETHERNET + 2, 2, wishes[2].unwrap_or(total as u32));
    put(&mut bytes, ETHERNET + 6, 2, wishes[3].unwrap_or(0));
    put(&mut bytes, ETHERNET + 9, 1, protocol);
    for (field, at, count) in [(1, 1, 1), (4, 8, 1), (6, 12, 4), (7, 16, 4)] {
        if let Some(wish) = wishes[field] {
            put(&mut bytes, ETHERNET + at, count, wish);
        }
    }
    let transport: &[(usize, usize, usize)] = match protocol {
        ICMP => &[(11, 0, 1), (12, 1, 1)],
        TCP => &[(8, 0, 2), (9, 2, 2), (10, 13, 1)],
        _ => &[(8, 0, 2), (9, 2, 2)],
    };
    for &(field, at, count) in transport {
        if let Some(wish) = wishes[field] {
            put(&mut bytes, ETHERNET + header + at, count, wish);
        }
    }
    Frame { bytes, port: wishes[13].unwrap_or(0) as u8 }
}

/// The protocol whose header has the fields that are wished.
fn protocol_for(wishes: &Wishes) -> u32 {
    if wishes[10].is_some() {
        TCP
    } else if wishes[11].is_some() || wishes[12].is_some() {
        ICMP
    } else {
        UDP
    }
}

/// A value that satisfies a test, near the one at hand.
fn satisfy(random: &mut Random, test: &Test, x: u32) -> u32 {
    let all = full(test.field);
    match test.kind {
        EQUAL => x & !test.mask | test.value,
        DIFFERS if x & test.mask == test.value => x ^ 1 << test.mask.trailing_zeros(),
        AT_MOST if x > test.value => test.value.saturating_sub(random.below(3) as u32),
        AT_LEAST if x < test.value => test.value.saturating_add(random.below(3) as u32).min(all),
        _ => x,
    }
}

fn wish_for(random: &mut Random, filters: &[Filter]) -> Wishes {
    let mut wishes = [None; FIELDS];
    if filters.is_empty() {
        return wishes;
    }
    for _ in 0..random.between(1, 3) {
        let filter = &filters[random.below(filters.len())];
        for test in &filter.tests {
            if random.once_in(10) {
                continue;
            }
            let all = full(test.field);
            let at_hand = match wishes[test.field as usize] {
                Some(x) => x,
                None if random.once_in(2) => random.word() & all,
                None => test.value,
            };
            wishes[test.field as usize] = Some(satisfy(random, test, at_hand));
        }
    }
    wishes
}

/// Moves one wish a little, so that a test which would hold just fails.
fn disturb(random: &mut Random, wishes: &mut Wishes) {
    let field = random.below(FIELDS);
    if let Some(x) = wishes[field] {
        let all = full(field as u32);
        wishes[field] = Some(match random.below(4) {
            0 => x.wrapping_add(1) & all,
            1 => x.wrapping_sub(1) & all,
            2 => random.word() & all,
            _ => x ^ (1 << random.below(32)) & all,
        });
    }
}

/// Makes it likely that the fields wished for are there: an IP packet of the protocol that has them.
fn make_room(random: &mut Random, wishes: &mut Wishes) {
    if wishes[1..=12].iter().any(Option::is_some) && !random.once_in(8) {
        wishes[0] = Some(IPV4);
    }
    let transport = wishes[8..=12].iter().any(Option::is_some);
    if transport && (wishes[5].is_none() || !random.once_in(3)) {
        wishes[5] = Some(match protocol_for(wishes) {
            UDP => random.pick(&[TCP, UDP]),
            protocol => protocol,
        });
    }
    if wishes[5].is_none() {
        wishes[5] = Some(random.pick(&[ICMP, TCP, UDP, 2]));
    }
    let place = place_of_fragment(random);
    wishes[3] = match wishes[3] {
        None => Some(place),
        // What was wished of the offset leaves no transport fields: half of the frames have those.
        Some(x) if transport && random.once_in(2) => Some(x & !OFFSET | place & OFFSET),
        wish => wish,
    };
}

/// Field 3 of a whole packet or a first fragment and, once in six, of a later one.
fn place_of_fragment(random: &mut Random) -> u32 {
    let flags = random.pick(&[0, DONT_FRAGMENT, MORE_FRAGMENTS, 0x8000, 0xE000]);
    let offset = match random.below(18) {
        0 => 1 << random.below(13),
        1 => random.pick(&[1, OFFSET - 1, OFFSET]),
        2 => random.word() & OFFSET,
        _ => 0,
    };
    flags | offset
}

fn layout_for(random: &mut Random, wishes: &Wishes) -> Layout {
    let header = if random.once_in(6) { random.between(6, 15) as u8 } else { 5 };
    let mut transport = match random.below(6) {
        0 => random.below(21),
        1 => random.pick(&[0, 1, 2, 3, 4, 13, 14]),
        2 => random.between(20, 200),
        _ => 20,
    };
    // A total length that fits a frame becomes the packet's true length.
    if let Some(total) = wishes[2] {
        let total = total as usize;
        let bytes = 4 * usize::from(header);
        if total >= bytes && ETHERNET + total <= MOST_FRAME {
            transport = total - bytes;
        }
    }
    let used = ETHERNET + 4 * usize::from(header) + transport;
    let padding = match random.below(4) {
        0 => 60usize.saturating_sub(used),
        1 => random.below(40).min(MOST_FRAME - used),
        _ => 0,
    };
    let filler = (0..random.between(1, 64)).map(|_| random.byte()).collect();
    Layout { version: 4, header, transport, padding, filler }
}

/// Spoils a frame in one of the ways that make fields absent.
fn spoil(random: &mut Random, bytes: &mut Vec<u8>) {
    let at = ETHERNET;
    match random.below(8) {
        0 => bytes.truncate(random.below(bytes.len() + 1)),
        1 => bytes.truncate(random.between(0, 60)),
        2 => put(bytes, at, 1, (random.byte() & 0xF0 | 5).into()),
        3 => put(bytes, at, 1, u32::from(0x40 | random.byte() & 0x0F)),
        4 => put(bytes, at + 2, 2, random.below(80) as u32),
        5 => {
            let fits = bytes.len().saturating_sub(ETHERNET) as u32;
            let near = (fits + random.below(3) as u32).saturating_sub(1);
            put(bytes, at + 2, 2, near);
        }
        6 => {
            let type_or_length = random.pick(&[0, 46, 1500, 1535, 1536, 0x0801, 0x86DD, 0x8100]);
            put(bytes, 12, 2, type_or_length);
        }
        _ => {
            let place = random.below(bytes.len().max(1));
            put(bytes, place, 1, random.byte().into());
        }
    }
}

/// A frame towards some filters of a list: mostly one that satisfies them, sometimes nearly, and
/// sometimes with fields missing.
pub fn towards(random: &mut Random, filters: &[Filter]) -> Frame {
    if random.once_in(24) {
        return noise(random);
    }
    let mut wishes = wish_for(random, filters);
    if random.once_in(4) {
        disturb(random, &mut wishes);
    }
    make_room(random, &mut wishes);
    if wishes[13].is_none() {
        wishes[13] = Some(random.below(4) as u32);
    }
    let layout = layout_for(random, &wishes);
    let mut frame = compose(&wishes, &layout);
    if random.once_in(7) {
        spoil(random, &mut frame.bytes);
    }
    frame
}

/// Bytes without any sense.
pub fn noise(random: &mut Random) -> Frame {
    let length = random.pick(&[0, 13, 14, 33, 34, 60, 100, 300]);
    let length = random.below(length + 1);
    Frame { bytes: (0..length).map(|_| random.byte()).collect(), port: random.byte() }
}

/// Frames at the edges of the documents' presence rules, each with what it is about.
pub fn hand_made() -> Vec<(&'static str, Frame)> {
    let mut frames = Vec::new();
    ethernet_edges(&mut frames);
    ip_edges(&mut frames);
    transport_edges(&mut frames);
    fragment_edges(&mut frames);
    frames
}

type Named = Vec<(&'static str, Frame)>;

fn ethernet_edges(frames: &mut Named) {
    let frame = |bytes: Vec<u8>| Frame { bytes, port: 7 };
    frames.push(("no bytes", frame(Vec::new())));
    frames.push(("13 bytes", frame(vec![8; 13])));
    for (name, number) in [
        ("802.3 length 46", 46),
        ("1535, the greatest length", 1535),
        ("1536, the least EtherType", 1536),
        ("ARP", 0x0806),
        ("IPv6", 0x86DD),
        ("VLAN tag", 0x8100),
        ("greatest EtherType", 0xFFFF),
    ] {
        let mut wishes = [None; FIELDS];
        wishes[0] = Some(number);
        frames.push((name, compose(&wishes, &Layout::plain(20))));
        let mut bare = compose(&wishes, &Layout::plain(0)).bytes;
        bare.truncate(ETHERNET);
        frames.push((name, frame(bare)));
    }
}

fn ip_edges(frames: &mut Named) {
    let udp = |layout: &Layout| {
        let mut wishes = [None; FIELDS];
        wishes[5] = Some(UDP);
        wishes[8] = Some(53);
        wishes[9] = Some(1024);
        compose(&wishes, layout)
    };
    for version in [0, 3, 5, 6, 15] {
        frames.push(("another version", udp(&Layout { version, ..Layout::plain(8) })));
    }
    for header in [0, 1, 4, 5, 6, 15] {
        frames.push(("another header length", udp(&Layout { header, ..Layout::plain(8) })));
    }
    for padding in [1, 18, 400] {
        frames.push(("padding", udp(&Layout { padding, ..Layout::plain(8) })));
    }
    for cut in 1..=28 {
        let mut short = udp(&Layout::plain(8));
        short.bytes.truncate(short.bytes.len() - cut);
        frames.push(("cut short", short));
    }
    for total in [0, 19, 20, 23, 24, 27, 28, 29, 65535] {
        let mut odd = udp(&Layout::plain(8));
        put(&mut odd.bytes, ETHERNET + 2, 2, total);
        frames.push(("another total length", odd));
    }
    for total in [19, 20, 21] {
        // With options the header is longer than this total length.
        let mut odd = udp(&Layout { header: 6, ..Layout::plain(8) });
        put(&mut odd.bytes, ETHERNET + 2, 2, total);
        frames.push(("total length below the header's", odd));
    }
}

fn transport_edges(frames: &mut Named) {
    for protocol in [ICMP, TCP, UDP, 0, 2, 58, 255] {
        for transport in [0, 1, 2, 3, 4, 5, 8, 13, 14, 15, 20, 40] {
            for header in [5, 7] {
                let mut wishes = [None; FIELDS];
                wishes[5] = Some(protocol);
                wishes[4] = Some(1);
                let filler = vec![8, 0, 1, 2, 3, 0x12];
                let padding = 20;
                let layout = Layout { version: 4, header, transport, padding, filler };
                frames.push(("transport part", compose(&wishes, &layout)));
            }
        }
    }
}

/// A packet with this field 3, protocol and header length in words, and bytes behind the header that
/// would make transport fields.
pub fn fragment(place: u32, protocol: u32, header: u8) -> Frame {
    let mut wishes = [None; FIELDS];
    wishes[3] = Some(place);
    wishes[5] = Some(protocol);
    for (field, value) in [(8, 0x0803), (9, 0x238C), (10, 0x12), (11, 8), (12, 3)] {
        wishes[field] = Some(value);
    }
    compose(&wishes, &Layout { header, filler: vec![1], ..Layout::plain(24) })
}

fn fragment_edges(frames: &mut Named) {
    for (name, place) in [
        ("not to be fragmented", DONT_FRAGMENT),
        ("first fragment", MORE_FRAGMENTS),
        ("all flags and offset 0", !OFFSET & 0xFFFF),
        ("middle fragment", MORE_FRAGMENTS | 185),
        ("middle fragment at offset 1", MORE_FRAGMENTS | 1),
        ("middle fragment at offset 8,191", MORE_FRAGMENTS | OFFSET),
        ("last fragment", 370),
        ("last fragment at offset 1", 1),
        ("last fragment at offset 8,191", OFFSET),
        ("all flags and offset 8,191", 0xFFFF),
    ] {
        for protocol in [ICMP, TCP, UDP] {
            for header in [5, 7, 15] {
                frames.push((name, fragment(place, protocol, header)));
            }
        }
    }
}

/// An echo request with a time to live, as a host sends it.
pub fn echo_request(ttl: u32) -> Frame {
    let mut wishes = [None; FIELDS];
    wishes[4] = Some(ttl);
    wishes[5] = Some(ICMP);
    wishes[6] = Some(0x0A00_0001);
    wishes[7] = Some(0x0A00_0002);
    wishes[11] = Some(8);
    wishes[12] = Some(0);
    compose(&wishes, &Layout::plain(IP_HEADER + 44))
}
