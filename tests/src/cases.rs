//! How many cases a check tries where that depends on the processor: under an emulator a call takes
//! many times as long, and fewer are tried. What is not in this table is tried in full on both.

use std::env;

/// A number of cases that depends on whether the code under test runs under an emulator.
pub struct Cases {
    name: &'static str,
    direct: usize,
    emulated: usize,
}

impl Cases {
    pub fn count(&self) -> usize {
        if emulated() {
            self.emulated
        } else {
            self.direct
        }
    }

    /// Prints the number, in a line that `scripts/progress` shows.
    pub fn tell(&self) {
        let how = if emulated() { "under an emulator" } else { "directly" };
        println!("cases: {} {} ({how}; {} at full)", self.count(), self.name, self.direct);
    }
}

/// Whether the code under test runs under an emulator here.
fn emulated() -> bool {
    let same_code = cfg!(target_arch = "x86_64") || filterbox_sys::LINKED;
    !same_code || env::var_os("FILTERBOX_EMULATOR").is_some_and(|word| !word.is_empty())
}

pub const RANDOM_LISTS: Cases = Cases { name: "random lists", direct: 54_000, emulated: 9_000 };
pub const RANDOM_TEXTS: Cases = Cases { name: "random texts", direct: 600, emulated: 200 };
pub const GATEWAY_RUNS: Cases = Cases { name: "runs of a gateway", direct: 120, emulated: 12 };
pub const OTHER_CONTENTS: Cases =
    Cases { name: "lists whose frames get other contents", direct: 400, emulated: 12 };
pub const CAPTURE_CUTS: Cases = Cases { name: "cuts of captures", direct: 2_500, emulated: 300 };
pub const RANDOM_CAPTURES: Cases = Cases { name: "random captures", direct: 600, emulated: 60 };
