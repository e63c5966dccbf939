//! A stand-in for the library under test: the bench's plain builder and walker under the library's C
//! names. The tests are tried on it, and on damaged copies of it that they must not let pass.

#[path = "../../bench/src/plain.rs"]
mod plain;
#[path = "../../bench/src/scanner.rs"]
mod scanner;

use filterbox_sys::{AnswerWords, Field, Judged, Lamp, Scanned, ScannedWords};
use plain::{Built, FromTheBack, MOST_FILTERS, MOST_FRAME, MOST_TESTS, SLOT};
use scanner::InTurn;
use std::slice::{from_raw_parts, from_raw_parts_mut};

/// # Safety
/// Each pointer must be good for as many words as the length behind it says.
#[no_mangle]
pub unsafe extern "C" fn filterbox_build(
    list: *const u32,
    list_len: usize,
    table: *mut u32,
    table_len: usize,
    scratch: *mut u32,
    scratch_len: usize,
) -> Built {
    plain::build::<FromTheBack>(
        from_raw_parts(list, list_len),
        from_raw_parts_mut(table, table_len),
        from_raw_parts_mut(scratch, scratch_len),
    )
}

/// # Safety
/// Each pointer must be good for as many words as the length behind it says.
#[no_mangle]
pub unsafe extern "C" fn filterbox_classify(
    frame: *const u8,
    frame_len: usize,
    port: u8,
    table: *const u32,
    table_len: usize,
    states: u32,
    allowance: u32,
) -> AnswerWords {
    plain::classify(
        from_raw_parts(frame, frame_len),
        port,
        from_raw_parts(table, table_len),
        states,
        allowance,
    )
    .into()
}

/// # Safety
/// Each pointer must be good for as much as the length behind it says.
#[no_mangle]
pub unsafe extern "C" fn filterbox_scan(
    list: *const u32,
    list_len: usize,
    frame: *const u8,
    frame_len: usize,
    port: u8,
) -> ScannedWords {
    let (list, frame) = (from_raw_parts(list, list_len), from_raw_parts(frame, frame_len));
    let refused = |refusal, filter| Scanned { refusal, filter, set: 0 }.into();
    if let Err(built) = plain::check(list) {
        return refused(built.refusal, built.number);
    }
    if frame.len() > MOST_FRAME {
        return refused(12, 0);
    }
    Scanned { refusal: 0, filter: 0, set: InTurn::new(list).scan_in_turn(frame, port) }.into()
}

/// # Safety
/// Each pointer must be good for as much as the length behind it says.
#[no_mangle]
pub unsafe extern "C" fn filterbox_lamp(
    list: *const u32,
    list_len: usize,
    frame: *const u8,
    frame_len: usize,
    port: u8,
    table: *const u32,
    table_len: usize,
    states: u32,
) -> Lamp {
    plain::lamp(
        from_raw_parts(list, list_len),
        from_raw_parts(frame, frame_len),
        port,
        from_raw_parts(table, table_len),
        states,
    )
}

/// # Safety
/// Each pointer must be good for as much as the length behind it says.
#[no_mangle]
pub unsafe extern "C" fn filterbox_judge(
    frame: *const u8,
    frame_len: usize,
    port: u8,
    table: *const u32,
    table_len: usize,
    states: u32,
    verdicts: *const u32,
    verdicts_len: usize,
    standing: u32,
    tallies: *mut u32,
    tallies_len: usize,
) -> Judged {
    let (frame, table) = (from_raw_parts(frame, frame_len), from_raw_parts(table, table_len));
    let verdicts = from_raw_parts(verdicts, verdicts_len);
    let tallies = from_raw_parts_mut(tallies, tallies_len);
    let refused = |refusal| Judged { refusal, verdict: 0 };
    if tallies.len() != MOST_FILTERS + 1 {
        return refused(24);
    }
    if verdicts.len() != MOST_FILTERS || standing > 2 || verdicts.iter().any(|&verdict| verdict > 2) {
        return refused(16);
    }
    let answer = plain::classify(frame, port, table, states, (MOST_FILTERS * MOST_TESTS) as u32);
    match answer.ended {
        0 => refused(answer.refusal),
        1 => {
            let tally = &mut tallies[answer.sure.trailing_zeros() as usize];
            let Some(more) = tally.checked_add(1) else { return refused(15) };
            *tally = more;
            let place = answer.sure.trailing_zeros() as usize;
            Judged { refusal: 0, verdict: verdicts.get(place).copied().unwrap_or(standing) }
        }
        _ => refused(13),
    }
}

/// # Safety
/// The pointer must be good for as many words as the length behind it says.
#[no_mangle]
pub unsafe extern "C" fn filterbox_clear(tallies: *mut u32, tallies_len: usize) {
    from_raw_parts_mut(tallies, tallies_len).fill(0);
}

/// # Safety
/// The pointer must be good for as many bytes as the length behind it says.
#[no_mangle]
pub unsafe extern "C" fn filterbox_field(
    frame: *const u8,
    frame_len: usize,
    port: u8,
    number: u32,
) -> Field {
    let frame = from_raw_parts(frame, frame_len);
    let header = plain::read_header(frame, port);
    let has = |set: u32| number <= 13 && set >> number & 1 == 1;
    if has(header.present) {
        return Field { kind: 1, value: header.values[number as usize] };
    }
    Field { kind: if has(plain::possible(frame)) { 2 } else { 0 }, value: 0 }
}

#[no_mangle]
pub extern "C" fn filterbox_scratch_words() -> u32 {
    SLOT as u32
}

// Each is what the interface declares.
const _: filterbox_sys::types::filterbox_build = filterbox_build;
const _: filterbox_sys::types::filterbox_classify = filterbox_classify;
const _: filterbox_sys::types::filterbox_scan = filterbox_scan;
const _: filterbox_sys::types::filterbox_lamp = filterbox_lamp;
const _: filterbox_sys::types::filterbox_judge = filterbox_judge;
const _: filterbox_sys::types::filterbox_clear = filterbox_clear;
const _: filterbox_sys::types::filterbox_field = filterbox_field;
const _: filterbox_sys::types::filterbox_scratch_words = filterbox_scratch_words;
