//! What a frame's header fields are (document 01, "Fields", mended by document 02, P2).

pub use crate::sizes::{FIELDS, WIDTHS};

/// The fields' names, for reports.
pub const NAMES: [&str; FIELDS] = [
    "EtherType",
    "type of service",
    "total length",
    "flags and offset",
    "time to live",
    "protocol",
    "source address",
    "destination address",
    "source port",
    "destination port",
    "TCP flags",
    "ICMP type",
    "ICMP code",
    "box port",
];

/// The bytes before the IP header.
pub const ETHERNET: usize = 14;
/// The least bytes of an IP header.
pub const IP_HEADER: usize = 20;
/// The EtherType of IPv4.
pub const IPV4: u32 = 0x0800;
/// The least number in bytes 12, 13 that is an EtherType; smaller is an 802.3 length.
pub const LEAST_ETHERTYPE: u32 = 1536;
pub const ICMP: u32 = 1;
pub const TCP: u32 = 6;
pub const UDP: u32 = 17;
/// The bits of field 3 that are the fragment's offset; the three above them are flags.
pub const OFFSET: u32 = 0x1FFF;

/// A field's value, or none where the field is absent.
pub type Readings = [Option<u32>; FIELDS];

/// The greatest number of a field's width.
pub fn full(field: u32) -> u32 {
    greatest(WIDTHS[field as usize])
}

/// The greatest number of so many bits, 1 to 32.
pub fn greatest(bits: u32) -> u32 {
    u32::MAX >> (32 - bits)
}

/// The big-endian number in `count` bytes from `at` on.
fn number(bytes: &[u8], at: usize, count: usize) -> u32 {
    bytes[at..at + count].iter().fold(0, |n, &byte| n << 8 | u32::from(byte))
}

/// All fields of a frame that came in at a port.
pub fn read(frame: &[u8], port: u8) -> Readings {
    let mut readings = [None; FIELDS];
    readings[13] = Some(u32::from(port));
    if frame.len() < ETHERNET {
        return readings;
    }
    let ethertype = number(frame, 12, 2);
    if ethertype >= LEAST_ETHERTYPE {
        readings[0] = Some(ethertype);
    }
    if ethertype == IPV4 {
        if let Some((header, total)) = ip_lengths(frame) {
            read_ip(&frame[ETHERNET..], &mut readings);
            // A fragment from the middle or the end has no transport header.
            if !later_fragment(&readings) {
                let transport = &frame[ETHERNET + header..ETHERNET + total];
                read_transport(transport, &mut readings);
            }
        }
    }
    readings
}

/// Header length and total length, if the frame has an IPv4 header that is in order.
fn ip_lengths(frame: &[u8]) -> Option<(usize, usize)> {
    if frame.len() < ETHERNET + IP_HEADER {
        return None;
    }
    let version = frame[ETHERNET] >> 4;
    let header = 4 * usize::from(frame[ETHERNET] & 0x0F);
    let total = number(frame, ETHERNET + 2, 2) as usize;
    let in_order =
        version == 4 && header >= IP_HEADER && total >= header && ETHERNET + total <= frame.len();
    in_order.then_some((header, total))
}

fn read_ip(ip: &[u8], readings: &mut Readings) {
    readings[1] = Some(number(ip, 1, 1));
    readings[2] = Some(number(ip, 2, 2));
    readings[3] = Some(number(ip, 6, 2));
    readings[4] = Some(number(ip, 8, 1));
    readings[5] = Some(number(ip, 9, 1));
    readings[6] = Some(number(ip, 12, 4));
    readings[7] = Some(number(ip, 16, 4));
}

/// How many of a frame's bytes, from the first on, may steer the box (document 02, P9): with IPv4
/// fields all before 14 + H + 14, else 34, as far as the frame goes.
pub fn steering(frame: &[u8]) -> usize {
    let ipv4 = read(frame, 0)[1..=7].iter().all(Option::is_some);
    let reach = if ipv4 { 14 + 4 * usize::from(frame[14] & 0x0F) + 14 } else { 34 };
    reach.min(frame.len())
}

/// Whether the fields are those of a fragment that does not begin its datagram.
pub fn later_fragment(readings: &Readings) -> bool {
    readings[3].is_some_and(|x| x & OFFSET != 0)
}

fn read_transport(part: &[u8], readings: &mut Readings) {
    let protocol = readings[5].expect("read_ip comes first");
    if (protocol == TCP || protocol == UDP) && part.len() >= 4 {
        readings[8] = Some(number(part, 0, 2));
        readings[9] = Some(number(part, 2, 2));
    }
    if protocol == TCP && part.len() >= 14 {
        readings[10] = Some(number(part, 13, 1));
    }
    if protocol == ICMP && !part.is_empty() {
        readings[11] = Some(number(part, 0, 1));
    }
    if protocol == ICMP && part.len() >= 2 {
        readings[12] = Some(number(part, 1, 1));
    }
}
