//! What the program `compile` prints for a text (document 01, "Numbers to try").

use crate::builder::{build, MOST_SCRATCH_WORDS, RECORD_WORDS};

/// The longest text that is read.
pub const MOST_TEXT: usize = 16_384;
/// The slots that the program lends.
pub const SLOTS: usize = 16;

/// The words of a text, or none for refusal 14.
pub fn items(text: &[u8]) -> Option<Vec<u32>> {
    if text.len() > MOST_TEXT {
        return None;
    }
    text.split(|&byte| byte == b' ' || byte == b'\n')
        .filter(|item| !item.is_empty())
        .map(decimal)
        .collect()
}

/// Digits only; zeros in front are allowed, signs are not.
fn decimal(item: &[u8]) -> Option<u32> {
    let mut number: u32 = 0;
    for &byte in item {
        if !byte.is_ascii_digit() {
            return None;
        }
        number = number.checked_mul(10)?.checked_add(u32::from(byte - b'0'))?;
    }
    Some(number)
}

/// All that the program prints.
pub fn compile(text: &[u8]) -> String {
    let Some(list) = items(text) else {
        return "refused 14 0\n".to_string();
    };
    let mut table = vec![0; SLOTS * RECORD_WORDS];
    let mut scratch = vec![0; SLOTS * MOST_SCRATCH_WORDS];
    let built = build(&list, &mut table, &mut scratch, MOST_SCRATCH_WORDS);
    if built.refusal != 0 {
        return format!("refused {} {}\n", built.refusal, built.number);
    }
    let mut lines = format!("states {}\n", built.number);
    for (n, record) in table.chunks(RECORD_WORDS).take(built.number as usize).enumerate() {
        let words: Vec<String> = record.iter().map(u32::to_string).collect();
        lines.push_str(&format!("{n} {}\n", words.join(" ")));
    }
    lines
}
