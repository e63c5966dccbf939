//! A second reading of document 01, in plain Rust, to compare the proved library with.
//!
//! Everything here was written from document 01 alone, never from the definitions or the code that
//! are proved: where both readings agree on many inputs, a slip in one of them would have to be
//! made twice.
//!
//! - `sizes`: document 01's numbers
//! - `fields`: what a frame's header fields are
//! - `rules`: a run of words as a list of filters, refusals 1 to 9, ranks
//! - `scanner`: the match set, by asking every filter in turn
//! - `residue`: what is left of a test, line by line
//! - `brute`: the sets after each outcome, worked out from the whole list each time
//! - `builder`: states, numbers, records, refusals 10 and 11, the words afterwards
//! - `walker`: a frame's walk through a table's words, refusals 12 and 13
//! - `lamp`: whether any filter matches, by a walk beside the frame's path
//! - `gateway`: verdicts and tallies (document 02, P5)
//! - `demands`: what the answers for one frame must be at every allowance
//! - `program`: what the program `compile` prints for a text
//! - `replay`: what the program `replay` prints for a text and a capture (document 02, P10)
//! - `examples`: lists with known answers
//! - `random`, `lists`, `frames`: seeded inputs
//! - `pcap`: the frames of a capture file, and files to be read
//! - `coverage`, `runner`: what a run has met, and how it is counted
//! - `tools`: other programs that the tests run, where they are installed
//! - `library`: the library under test, linked or over the pipe
//! - `pipe`, `pages`: the way over the pipe; memory with nothing before and behind it
//! - `cases`: how many cases a check tries

pub mod brute;
pub mod builder;
pub mod cases;
pub mod coverage;
pub mod cut;
pub mod demands;
pub mod examples;
pub mod fields;
pub mod frames;
pub mod gateway;
pub mod lamp;
#[cfg(feature = "library")]
pub mod library;
pub mod lists;
#[cfg(feature = "library")]
mod pages;
pub mod pcap;
#[cfg(feature = "library")]
pub mod pipe;
pub mod program;
pub mod random;
pub mod replay;
pub mod residue;
pub mod rules;
pub mod runner;
pub mod scanner;
pub mod sizes;
pub mod tools;
pub mod walker;
