//! Whether any filter matches at all (document 02, P4): a frame's walk through a table's words beside
//! the frame's own path, which says of each record what it should ask.

pub use filterbox_sys::Lamp;

use crate::brute::path;
use crate::builder::{slots, RECORD_WORDS};
use crate::fields::read;
use crate::frames::Frame;
use crate::residue::OUTCOMES;
use crate::rules::{read_list, TEST_WORDS};
use crate::walker::MOST_FRAME;

fn refused(refusal: u32, filter: u32) -> Lamp {
    Lamp { refusal, filter, lit: 0, asked: 0 }
}

/// The lamp's answer for any words of a list and a table.
pub fn lamp(list: &[u32], frame: &Frame, table: &[u32], states: u32) -> Lamp {
    let filters = match read_list(list) {
        Ok(filters) => filters,
        Err(fault) => return refused(fault.refusal, fault.filter),
    };
    if frame.bytes.len() > MOST_FRAME {
        return refused(12, 0);
    }
    if states == 0 || states as usize > slots(table.len()) {
        return refused(13, 0);
    }
    let mut number = 0;
    for (asked, point) in path(&filters, &read(&frame.bytes, frame.port)).iter().enumerate() {
        let record = &table[number as usize * RECORD_WORDS..][..RECORD_WORDS];
        let right = match point.asked {
            None => record[0] == 0,
            Some((question, _)) => record[..TEST_WORDS] == question.words(),
        };
        if !right {
            return refused(13, 0);
        }
        let Some((_, outcome)) = point.asked.filter(|_| !point.held) else {
            return Lamp { refusal: 0, filter: 0, lit: point.held.into(), asked: asked as u32 };
        };
        let way = OUTCOMES.iter().position(|&o| o == outcome).expect("one of three");
        number = record[TEST_WORDS + way];
        if number >= states {
            return refused(13, 0);
        }
    }
    unreachable!("a path ends where nothing is asked")
}
