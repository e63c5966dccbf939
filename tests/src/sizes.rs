//! Document 01's numbers, as document 02 has changed them, each named once: the reference and the tests take them from here.
//!
//! They were read from the document, not from the library. A test that tries an edge which the
//! document prints (64 filters pass, 65 do not) writes the document's own number.

pub use filterbox_sys::Set;

/// How many fields there are.
pub const FIELDS: usize = 14;
/// The bits of each field, by its number.
pub const WIDTHS: [u32; FIELDS] = [16, 8, 16, 16, 8, 8, 32, 32, 16, 16, 8, 8, 8, 8];
/// The longest frame that is not refused.
pub const MOST_FRAME: usize = 1522;

pub const MOST_FILTERS: usize = 64;
pub const MOST_TESTS: u32 = 8;
/// The greatest group and the greatest level.
pub const MOST_GROUP: u32 = 255;
/// Group, level, number of tests.
pub const FILTER_WORDS: usize = 3;
/// Kind, field, mask, value.
pub const TEST_WORDS: usize = 4;

pub const EQUAL: u32 = 1;
pub const DIFFERS: u32 = 2;
pub const AT_MOST: u32 = 3;
pub const AT_LEAST: u32 = 4;

/// The words of a set, the low half first (document 02, P8).
pub const SET_WORDS: usize = 2;

/// The places of a record's words: the four of its question, three next states, two sets.
pub const HOLDS_AT: usize = TEST_WORDS;
pub const FAILS_AT: usize = 5;
pub const ABSENT_AT: usize = 6;
pub const SURE_AT: usize = 7;
pub const OUT_AT: usize = SURE_AT + SET_WORDS;
/// The words of a record.
pub const RECORD_WORDS: usize = OUT_AT + SET_WORDS;

pub const MOST_SLOTS: usize = 4096;
/// The most scratch words that a slot may take.
pub const MOST_SCRATCH_WORDS: usize = 2048;

/// The stack in bytes that building takes at the most, as the header says it.
pub const BUILD_STACK: usize = 400_000;

/// The set that stands at a place of a record.
pub fn set_at(record: &[u32], at: usize) -> Set {
    Set::from(record[at]) + Set::from(record[at + 1]) * (1 << 32)
}

/// Puts a set there.
pub fn put_set(record: &mut [u32], at: usize, set: Set) {
    record[at] = (set % (1 << 32)) as u32;
    record[at + 1] = (set / (1 << 32)) as u32;
}
