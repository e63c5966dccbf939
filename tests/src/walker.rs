//! A frame's walk through a table's words, whoever wrote them
//! (document 01, "Refusal numbers", the part on classifying; document 02, P7).

pub use filterbox_sys::Answer;

pub use crate::sizes::MOST_FRAME;

use crate::builder::{slots, RECORD_WORDS};
use crate::cut::glance;
use crate::fields::{read, FIELDS};
use crate::rules::{Test, AT_LEAST};
use crate::sizes::{set_at, ABSENT_AT, FAILS_AT, HOLDS_AT, OUT_AT, SURE_AT};

pub const REFUSED: u32 = 0;
pub const DONE: u32 = 1;
pub const STOPPED: u32 = 2;

fn refused(refusal: u32) -> Answer {
    Answer { ended: REFUSED, refusal, sure: 0, out: 0, asked: 0, cut: 0 }
}

/// Walks a frame through a table, with so many questions allowed.
pub fn classify(frame: &[u8], port: u8, table: &[u32], states: u32, allowance: u32) -> Answer {
    if frame.len() > MOST_FRAME {
        return refused(12);
    }
    if states == 0 || states as usize > slots(table.len()) {
        return refused(13);
    }
    let readings = read(frame, port);
    let mut number = 0;
    let mut asked = 0;
    let mut absent = Vec::new();
    loop {
        let record = &table[number as usize * RECORD_WORDS..][..RECORD_WORDS];
        let question =
            Test { kind: record[0], field: record[1], mask: record[2], value: record[3] };
        let final_state = question.kind == 0;
        if question.kind > AT_LEAST || !final_state && question.field >= FIELDS as u32 {
            return refused(13);
        }
        if final_state || asked == allowance {
            let ended = if final_state { DONE } else { STOPPED };
            let cut = u32::from(some_cut(frame, &absent));
            let (sure, out) = (set_at(record, SURE_AT), set_at(record, OUT_AT));
            return Answer { ended, refusal: 0, sure, out, asked, cut };
        }
        let way = match readings[question.field as usize] {
            None => ABSENT_AT,
            Some(x) if question.of(x) => HOLDS_AT,
            Some(_) => FAILS_AT,
        };
        if record[way] >= states {
            return refused(13);
        }
        // Only a question whose way has been taken counts.
        number = record[way];
        asked += 1;
        if way == ABSENT_AT {
            absent.push(question.field as usize);
        }
    }
}

/// Whether any of these absent fields was cut off (document 02, P7).
fn some_cut(frame: &[u8], absent: &[usize]) -> bool {
    !absent.is_empty() && {
        let found = glance(frame);
        absent.iter().any(|&field| found[field])
    }
}
