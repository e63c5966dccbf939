//! The gateway (document 02, P5 and P8): a frame's verdict, the tallies afterwards, and the refusals.
//!
//! `judge` goes by a table's words, whoever wrote them; `judge_by_list` by what the list means.

pub use filterbox_sys::Judged;

use crate::fields::read;
use crate::frames::Frame;
use crate::rules::Filter;
use crate::scanner::match_set;
use crate::sizes::{Set, MOST_FILTERS, MOST_FRAME};
use crate::walker::{classify, REFUSED, STOPPED};

pub const PASS: u32 = 0;
pub const DROP: u32 = 1;
pub const DIVERT: u32 = 2;

/// The most questions of a walk.
pub const ALLOWANCE: u32 = 512;

/// One tally for each filter, and one for frames that match none.
pub const TALLIES: usize = MOST_FILTERS + 1;

/// A tally that cannot count another frame.
pub const FULL: u32 = 4_294_967_295;

/// What frames are judged by.
#[derive(Clone, Copy, Debug)]
pub struct Setting<'a> {
    pub table: &'a [u32],
    pub states: u32,
    pub verdicts: &'a [u32],
    pub standing: u32,
}

fn refused(refusal: u32) -> Judged {
    Judged { refusal, verdict: 0 }
}

/// Refusals 24 and 16, which look at neither frame nor table.
fn unfit(by: &Setting, tallies: &[u32]) -> Option<Judged> {
    let known = |verdict: &u32| [PASS, DROP, DIVERT].contains(verdict);
    if tallies.len() != TALLIES {
        return Some(refused(24));
    }
    let fit = by.verdicts.len() == MOST_FILTERS && by.verdicts.iter().all(known);
    (!fit || !known(&by.standing)).then(|| refused(16))
}

/// Counts a frame with such a match set, if its tally has room.
fn count(set: Set, by: &Setting, tallies: &mut [u32]) -> Judged {
    let giver = (0..MOST_FILTERS).find(|&i| set >> i & 1 == 1);
    let (place, verdict) = match giver {
        Some(i) => (i, by.verdicts[i]),
        None => (MOST_FILTERS, by.standing),
    };
    if tallies[place] == FULL {
        return refused(15);
    }
    tallies[place] += 1;
    Judged { refusal: 0, verdict }
}

/// Judges a frame by a table.
pub fn judge(frame: &Frame, by: &Setting, tallies: &mut [u32]) -> Judged {
    if let Some(judged) = unfit(by, tallies) {
        return judged;
    }
    let answer = classify(&frame.bytes, frame.port, by.table, by.states, ALLOWANCE);
    match answer.ended {
        REFUSED => refused(answer.refusal),
        STOPPED => refused(13),
        _ => count(answer.sure, by, tallies),
    }
}

/// Judges a frame by the list that the table was built of; the table is not looked at.
pub fn judge_by_list(
    filters: &[Filter],
    frame: &Frame,
    by: &Setting,
    tallies: &mut [u32],
) -> Judged {
    if let Some(judged) = unfit(by, tallies) {
        return judged;
    }
    if frame.bytes.len() > MOST_FRAME {
        return refused(12);
    }
    count(match_set(filters, &read(&frame.bytes, frame.port)), by, tallies)
}
