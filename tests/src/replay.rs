//! What the program `replay` prints for the text of a list and a capture (document 02, P10).

use crate::fields::read;
use crate::program::items;
use crate::rules::read_list;
use crate::scanner::match_set;
use crate::sizes::MOST_FRAME;

/// A refusal's number, and the record's or the filter's number.
#[derive(Clone, Copy, PartialEq, Eq, Debug)]
pub struct Refusal(pub u32, pub u64);

/// The first four bytes of a file, and whether its numbers have their highest byte first.
const BEGINNINGS: [([u8; 4], bool); 4] = [
    ([0xA1, 0xB2, 0xC3, 0xD4], true),
    ([0xD4, 0xC3, 0xB2, 0xA1], false),
    ([0xA1, 0xB2, 0x3C, 0x4D], true),
    ([0x4D, 0x3C, 0xB2, 0xA1], false),
];

/// A record: how long the frame was, and what was captured of it.
pub struct Captured<'a> {
    pub original: u32,
    pub bytes: &'a [u8],
}

/// The records of a capture with link type 1, the whole number being compared; the version is not.
pub fn records(file: &[u8]) -> Result<Vec<Captured<'_>>, Refusal> {
    let no_capture = Refusal(17, 0);
    let (header, mut rest) = file.split_at_checked(24).ok_or(no_capture)?;
    let kind = BEGINNINGS.iter().find(|(beginning, _)| header.starts_with(beginning));
    let &(_, big) = kind.ok_or(no_capture)?;
    let number = |four: &[u8]| {
        let sum = |sum: u32, &byte: &u8| sum << 8 | u32::from(byte);
        if big {
            four.iter().fold(0, sum)
        } else {
            four.iter().rev().fold(0, sum)
        }
    };
    if number(&header[20..]) != 1 {
        return Err(no_capture);
    }
    let mut records = Vec::new();
    while !rest.is_empty() {
        let cut = Refusal(18, records.len() as u64 + 1);
        let (head, behind) = rest.split_at_checked(16).ok_or(cut)?;
        let captured = number(&head[8..12]) as usize;
        let (bytes, behind) = behind.split_at_checked(captured).ok_or(cut)?;
        records.push(Captured { original: number(&head[12..]), bytes });
        rest = behind;
    }
    Ok(records)
}

/// The numbers that are printed, in their order; the box port is 0.
pub fn tallies(text: &[u8], capture: &[u8]) -> Result<Vec<u64>, Refusal> {
    let list = items(text).ok_or(Refusal(14, 0))?;
    let filters =
        read_list(&list).map_err(|fault| Refusal(fault.refusal, u64::from(fault.filter)))?;
    let mut matched = vec![0; filters.len()];
    let [mut with, mut without, mut short, mut long] = [0; 4];
    for record in records(capture)? {
        if record.bytes.len() < record.original as usize {
            short += 1;
        } else if record.bytes.len() > MOST_FRAME {
            long += 1;
        } else {
            let set = match_set(&filters, &read(record.bytes, 0));
            for (i, count) in matched.iter_mut().enumerate() {
                *count += u64::from(set >> i & 1 == 1);
            }
            *(if set == 0 { &mut without } else { &mut with }) += 1;
        }
    }
    matched.extend([with, without, short, long]);
    Ok(matched)
}

/// All that the program prints.
pub fn replay(text: &[u8], capture: &[u8]) -> String {
    match tallies(text, capture) {
        Ok(numbers) => numbers.iter().map(|number| format!("{number}\n")).collect(),
        Err(Refusal(number, at)) => format!("refused {number} {at}\n"),
    }
}
