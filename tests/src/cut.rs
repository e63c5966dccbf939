//! Whether a field that is absent was cut off (document 02, P7): it is if some frame, however long,
//! that begins with these bytes has it, the two bytes of the IP total length alone being free. This
//! looks for such frames; it decides nothing by itself. That no other tail has more than the four
//! models is tried in `tests/reference.rs`.

use crate::fields::{read, Readings, ETHERNET, FIELDS, ICMP, TCP, UDP};

/// What reading a field answers.
#[derive(Clone, Copy, PartialEq, Eq, Debug)]
pub enum Seen {
    Value(u32),
    None,
    Cut,
}

/// The most bytes that any field needs: the longest IP header and the part up to the TCP flags.
pub const ENOUGH: usize = ETHERNET + 60 + 14;

/// Where the total length stands.
pub const TOTAL: usize = ETHERNET + 2;

/// Whole frames that go on where a short one ends: one of each protocol, and one that is not IP.
pub fn models() -> [[u8; ENOUGH]; 4] {
    [TCP, UDP, ICMP, 0].map(|protocol| {
        let mut frame = [0; ENOUGH];
        frame[12] = if protocol == 0 { 0x86 } else { 8 };
        frame[14] = 0x45;
        frame[23] = protocol as u8;
        frame
    })
}

/// The frame, going on as the model does.
pub fn longer(frame: &[u8], model: &[u8; ENOUGH]) -> Vec<u8> {
    let mut bytes = frame.to_vec();
    bytes.extend_from_slice(model.get(frame.len()..).unwrap_or(&[]));
    bytes
}

/// Notes the fields that the bytes have with this total length.
pub fn note(bytes: &mut [u8], total: usize, found: &mut [bool; FIELDS]) {
    bytes[TOTAL..TOTAL + 2].copy_from_slice(&(total as u16).to_be_bytes());
    for (field, there) in read(bytes, 0).iter().zip(found.iter_mut()) {
        *there |= field.is_some();
    }
}

/// Which fields longer frames have, by trying every total length.
pub fn search(frame: &[u8]) -> [bool; FIELDS] {
    let mut found = [false; FIELDS];
    for model in models() {
        let mut bytes = longer(frame, &model);
        for total in 0..=bytes.len().min(usize::from(u16::MAX)) {
            note(&mut bytes, total, &mut found);
        }
    }
    found
}

/// The same by one total length, which holds the longest header and all that is read behind it.
pub fn glance(frame: &[u8]) -> [bool; FIELDS] {
    let mut found = [false; FIELDS];
    for model in models() {
        note(&mut longer(frame, &model), ENOUGH - ETHERNET, &mut found);
    }
    found
}

/// What a field is seen as, by what the frame has and what longer frames have.
pub fn seen(readings: &Readings, found: &[bool; FIELDS], field: u32) -> Seen {
    match readings.get(field as usize) {
        Some(Some(x)) => Seen::Value(*x),
        Some(None) if found[field as usize] => Seen::Cut,
        _ => Seen::None,
    }
}
