//! The C interface of `include/filterbox.h` for Rust, declared once: tests, bench and the stand-in
//! take it from here. What each number means is said in the header.
//!
//! A new call takes its line in `calls!` and a function below it that takes slices.

/// A set of filters: filter i is bit i.
pub type Set = u64;

/// A set from its two words, and back; the low half is the first.
pub const fn set(low: u32, high: u32) -> Set {
    (high as Set) << 32 | low as Set
}

pub const fn halves(set: Set) -> [u32; 2] {
    [set as u32, (set >> 32) as u32]
}

/// What building answers.
#[repr(C)]
#[derive(Clone, Copy, PartialEq, Eq, Debug)]
pub struct Built {
    pub refusal: u32,
    pub number: u32,
}

/// What classifying answers, each set as one number.
#[derive(Clone, Copy, PartialEq, Eq, Debug)]
pub struct Answer {
    pub ended: u32,
    pub refusal: u32,
    pub sure: Set,
    pub out: Set,
    pub asked: u32,
    pub cut: u32,
}

/// The same as the call has it.
#[repr(C)]
pub struct AnswerWords {
    pub ended: u32,
    pub refusal: u32,
    pub sure_low: u32,
    pub sure_high: u32,
    pub out_low: u32,
    pub out_high: u32,
    pub asked: u32,
    pub cut: u32,
}

impl From<AnswerWords> for Answer {
    #[inline(always)]
    fn from(words: AnswerWords) -> Answer {
        let AnswerWords { ended, refusal, sure_low, sure_high, out_low, out_high, asked, cut } =
            words;
        let (sure, out) = (set(sure_low, sure_high), set(out_low, out_high));
        Answer { ended, refusal, sure, out, asked, cut }
    }
}

impl From<Answer> for AnswerWords {
    fn from(answer: Answer) -> AnswerWords {
        let Answer { ended, refusal, sure, out, asked, cut } = answer;
        let ([sure_low, sure_high], [out_low, out_high]) = (halves(sure), halves(out));
        AnswerWords { ended, refusal, sure_low, sure_high, out_low, out_high, asked, cut }
    }
}

/// What reading one field answers.
#[repr(C)]
#[derive(Clone, Copy, PartialEq, Eq, Debug)]
pub struct Field {
    pub kind: u32,
    pub value: u32,
}

/// What scanning answers, the set as one number.
#[derive(Clone, Copy, PartialEq, Eq, Debug)]
pub struct Scanned {
    pub refusal: u32,
    pub filter: u32,
    pub set: Set,
}

/// The same as the call has it.
#[repr(C)]
pub struct ScannedWords {
    pub refusal: u32,
    pub filter: u32,
    pub set_low: u32,
    pub set_high: u32,
}

impl From<ScannedWords> for Scanned {
    #[inline(always)]
    fn from(words: ScannedWords) -> Scanned {
        let ScannedWords { refusal, filter, set_low, set_high } = words;
        Scanned { refusal, filter, set: set(set_low, set_high) }
    }
}

impl From<Scanned> for ScannedWords {
    fn from(scanned: Scanned) -> ScannedWords {
        let [set_low, set_high] = halves(scanned.set);
        ScannedWords { refusal: scanned.refusal, filter: scanned.filter, set_low, set_high }
    }
}

/// What the lamp answers.
#[repr(C)]
#[derive(Clone, Copy, PartialEq, Eq, Debug)]
pub struct Lamp {
    pub refusal: u32,
    pub filter: u32,
    pub lit: u32,
    pub asked: u32,
}

/// What judging answers.
#[repr(C)]
#[derive(Clone, Copy, PartialEq, Eq, Debug)]
pub struct Judged {
    pub refusal: u32,
    pub verdict: u32,
}

/// Whether this program has the library's code in it; without it a call panics.
pub const LINKED: bool = cfg!(linked);

macro_rules! calls {
    ($(fn $name:ident($($lent:ident: $kind:ty),*) -> $answer:ty;)*) => {
        #[cfg(linked)]
        extern "C" {
            $(fn $name($($lent: $kind),*) -> $answer;)*
        }

        $(
            #[cfg(not(linked))]
            unsafe fn $name($(_: $kind),*) -> $answer {
                panic!("the library is not linked into this program");
            }
        )*

        /// The type of each call, by which a stand-in's own is checked.
        #[allow(non_camel_case_types)]
        pub mod types {
            use super::*;
            $(pub type $name = unsafe extern "C" fn($($kind),*) -> $answer;)*
        }
    };
}

calls! {
    fn filterbox_build(
        list: *const u32, list_len: usize,
        table: *mut u32, table_len: usize,
        scratch: *mut u32, scratch_len: usize
    ) -> Built;

    fn filterbox_classify(
        frame: *const u8, frame_len: usize, port: u8,
        table: *const u32, table_len: usize, states: u32, allowance: u32
    ) -> AnswerWords;

    fn filterbox_scan(
        list: *const u32, list_len: usize,
        frame: *const u8, frame_len: usize, port: u8
    ) -> ScannedWords;

    fn filterbox_lamp(
        list: *const u32, list_len: usize,
        frame: *const u8, frame_len: usize, port: u8,
        table: *const u32, table_len: usize, states: u32
    ) -> Lamp;

    fn filterbox_judge(
        frame: *const u8, frame_len: usize, port: u8,
        table: *const u32, table_len: usize, states: u32,
        verdicts: *const u32, verdicts_len: usize, standing: u32,
        tallies: *mut u32, tallies_len: usize
    ) -> Judged;

    fn filterbox_clear(tallies: *mut u32, tallies_len: usize) -> ();

    fn filterbox_field(frame: *const u8, frame_len: usize, port: u8, number: u32) -> Field;

    fn filterbox_scratch_words() -> u32;
}

/// Compiles a list into a lent table.
pub fn build(list: &[u32], table: &mut [u32], scratch: &mut [u32]) -> Built {
    // SAFETY: each pointer goes with the length of the slice it comes from, and the two that are
    // written come from slices lent for writing.
    unsafe {
        filterbox_build(
            list.as_ptr(),
            list.len(),
            table.as_mut_ptr(),
            table.len(),
            scratch.as_mut_ptr(),
            scratch.len(),
        )
    }
}

/// Walks a frame through a table.
#[inline(always)]
pub fn classify(frame: &[u8], port: u8, table: &[u32], states: u32, allowance: u32) -> Answer {
    // SAFETY: as above; the call writes nothing.
    unsafe {
        filterbox_classify(
            frame.as_ptr(),
            frame.len(),
            port,
            table.as_ptr(),
            table.len(),
            states,
            allowance,
        )
        .into()
    }
}

/// Asks each filter of a list in turn.
#[inline(always)]
pub fn scan(list: &[u32], frame: &[u8], port: u8) -> Scanned {
    // SAFETY: as above; the call writes nothing.
    unsafe { filterbox_scan(list.as_ptr(), list.len(), frame.as_ptr(), frame.len(), port).into() }
}

/// Whether any filter of a list matches.
#[inline(always)]
pub fn lamp(list: &[u32], frame: &[u8], port: u8, table: &[u32], states: u32) -> Lamp {
    // SAFETY: as above; the call writes nothing.
    unsafe {
        filterbox_lamp(
            list.as_ptr(),
            list.len(),
            frame.as_ptr(),
            frame.len(),
            port,
            table.as_ptr(),
            table.len(),
            states,
        )
    }
}

/// Judges a frame by a table and verdicts, and counts it in lent tallies.
pub fn judge(
    frame: &[u8],
    port: u8,
    table: &[u32],
    states: u32,
    verdicts: &[u32],
    standing: u32,
    tallies: &mut [u32],
) -> Judged {
    // SAFETY: as above; what is written comes from a slice lent for writing.
    unsafe {
        filterbox_judge(
            frame.as_ptr(),
            frame.len(),
            port,
            table.as_ptr(),
            table.len(),
            states,
            verdicts.as_ptr(),
            verdicts.len(),
            standing,
            tallies.as_mut_ptr(),
            tallies.len(),
        )
    }
}

/// Makes every tally 0.
pub fn clear(tallies: &mut [u32]) {
    // SAFETY: as above.
    unsafe { filterbox_clear(tallies.as_mut_ptr(), tallies.len()) }
}

/// Reads one field of a frame.
#[inline(always)]
pub fn field(frame: &[u8], port: u8, number: u32) -> Field {
    // SAFETY: as above; the call writes nothing.
    unsafe { filterbox_field(frame.as_ptr(), frame.len(), port, number) }
}

/// The scratch words that a slot takes.
pub fn scratch_words() -> usize {
    // SAFETY: takes nothing and answers a number.
    unsafe { filterbox_scratch_words() as usize }
}
