//! The match set, by asking every filter in turn (document 01, "Tests, filters, ranks").
//!
//! `scan` is the answer of the library's call without a table.
//!
//! It knows nothing of residues, states or tables: what it says is what the list means.

pub use filterbox_sys::Scanned;

use crate::builder::Built;
use crate::fields::{read, Readings};
use crate::frames::Frame;
use crate::rules::{above, Filter, Test};
use crate::sizes::{Set, MOST_FRAME};

/// Whether a test holds of a frame's readings; on an absent field none does.
pub fn test_holds(test: &Test, readings: &Readings) -> bool {
    readings[test.field as usize].is_some_and(|x| test.of(x))
}

/// Whether all tests of a filter hold.
pub fn filter_holds(filter: &Filter, readings: &Readings) -> bool {
    filter.tests.iter().all(|test| test_holds(test, readings))
}

/// Each filter that holds while none ranking above it does, as a bit set.
pub fn match_set(filters: &[Filter], readings: &Readings) -> Set {
    let holding: Vec<usize> =
        (0..filters.len()).filter(|&i| filter_holds(&filters[i], readings)).collect();
    holding
        .iter()
        .filter(|&&i| !holding.iter().any(|&j| above(filters, j, i)))
        .fold(0, |set, &i| set | 1 << i)
}

/// What scanning answers for a list of these filters, of which no word is at fault.
pub fn scan(filters: &[Filter], frame: &Frame) -> Scanned {
    if frame.bytes.len() > MOST_FRAME {
        return Scanned { refusal: 12, filter: 0, set: 0 };
    }
    let set = match_set(filters, &read(&frame.bytes, frame.port));
    Scanned { refusal: 0, filter: 0, set }
}

/// The refusal of a scan by what building the list answered: the list's faults come before a frame
/// that is too long. None where it is not refused.
pub fn refused(built: Built, long: bool) -> Option<Scanned> {
    match built.refusal {
        1..=9 => Some(Scanned { refusal: built.refusal, filter: built.number, set: 0 }),
        _ if long => Some(Scanned { refusal: 12, filter: 0, set: 0 }),
        _ => None,
    }
}
