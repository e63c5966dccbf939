//! The library under test, by one of two ways that nothing above this module knows: linked into the
//! test program where that is x86-64 code as well, else in a program of its own at the other end of
//! a pipe (`pipe`). FILTERBOX_PIPE=1 takes the pipe on any processor.
//!
//! A new call is one function here, with its two ways beside each other.

use std::env;
use std::sync::OnceLock;

use filterbox_sys as linked;
use filterbox_sys::{Answer, Built, Field, Judged, Lamp, Scanned};

use crate::frames::Frame;
use crate::gateway::Setting;
use crate::pages::{lent, shown};
use crate::pipe::{self, Call, Place, Room, Words};

#[derive(Clone, Copy)]
pub struct Library {
    piped: bool,
    place: Place,
}

/// The library by the way of this run.
pub fn library() -> Library {
    static PIPED: OnceLock<bool> = OnceLock::new();
    let forced = || env::var("FILTERBOX_PIPE").as_deref() == Ok("1");
    let piped = *PIPED.get_or_init(|| !linked::LINKED || forced());
    Library { piped, place: Place::Middle }
}

impl Library {
    /// The library over the pipe, whatever the way of this run is.
    pub fn piped() -> Library {
        Library { piped: true, place: Place::Middle }
    }

    /// The same, lent its rooms at a place.
    pub fn at(self, place: Place) -> Library {
        Library { place, ..self }
    }

    /// The way in words.
    pub fn way(self) -> &'static str {
        if self.piped {
            "over the pipe"
        } else {
            "linked"
        }
    }

    fn call(self, call: u32, numbers: &[u32], rooms: &mut [Room]) -> Words {
        pipe::call(Call { call, place: self.place, numbers }, rooms)
    }

    /// Compiles a list into a lent table.
    pub fn build(self, list: &[u32], table: &mut [u32], scratch: &mut [u32]) -> Built {
        if self.piped {
            let rooms = &mut [Room::Shown(list), Room::Lent(table), Room::Lent(scratch)];
            let [refusal, number, ..] = self.call(pipe::BUILD, &[], rooms);
            return Built { refusal, number };
        }
        shown(self.place, list, |list| {
            lent(self.place, table, |table| {
                lent(self.place, scratch, |scratch| linked::build(list, table, scratch))
            })
        })
    }

    /// Walks a frame through a table.
    pub fn classify(
        self,
        frame: &[u8],
        port: u8,
        table: &[u32],
        states: u32,
        allowance: u32,
    ) -> Answer {
        if self.piped {
            let numbers = [u32::from(port), states, allowance];
            let rooms = &mut [Room::Bytes(frame), Room::Shown(table)];
            let [ended, refusal, sure_low, sure_high, out_low, out_high, asked, cut, ..] =
                self.call(pipe::CLASSIFY, &numbers, rooms);
            let (sure, out) = (linked::set(sure_low, sure_high), linked::set(out_low, out_high));
            return Answer { ended, refusal, sure, out, asked, cut };
        }
        shown(self.place, frame, |frame| {
            shown(self.place, table, |table| {
                linked::classify(frame, port, table, states, allowance)
            })
        })
    }

    /// Asks each filter of a list in turn.
    pub fn scan(self, list: &[u32], frame: &[u8], port: u8) -> Scanned {
        if self.piped {
            let rooms = &mut [Room::Shown(list), Room::Bytes(frame)];
            let [refusal, filter, low, high, ..] = self.call(pipe::SCAN, &[u32::from(port)], rooms);
            return Scanned { refusal, filter, set: linked::set(low, high) };
        }
        shown(self.place, list, |list| {
            shown(self.place, frame, |frame| linked::scan(list, frame, port))
        })
    }

    /// Whether any filter of a list matches.
    pub fn lamp(self, list: &[u32], frame: &[u8], port: u8, table: &[u32], states: u32) -> Lamp {
        if self.piped {
            let numbers = [u32::from(port), states];
            let rooms = &mut [Room::Shown(list), Room::Bytes(frame), Room::Shown(table)];
            let [refusal, filter, lit, asked, ..] = self.call(pipe::LAMP, &numbers, rooms);
            return Lamp { refusal, filter, lit, asked };
        }
        shown(self.place, list, |list| {
            shown(self.place, frame, |frame| {
                shown(self.place, table, |table| linked::lamp(list, frame, port, table, states))
            })
        })
    }

    /// Judges a frame and counts it in lent tallies.
    pub fn judge(self, frame: &Frame, by: &Setting, tallies: &mut [u32]) -> Judged {
        let Setting { table, states, verdicts, standing } = *by;
        let Frame { bytes, port } = frame;
        if self.piped {
            let numbers = [u32::from(*port), states, standing];
            let rooms = &mut [
                Room::Bytes(bytes),
                Room::Shown(table),
                Room::Shown(verdicts),
                Room::Lent(tallies),
            ];
            let [refusal, verdict, ..] = self.call(pipe::JUDGE, &numbers, rooms);
            return Judged { refusal, verdict };
        }
        let call = |bytes: &[u8], table: &[u32], verdicts: &[u32], tallies: &mut [u32]| {
            linked::judge(bytes, *port, table, states, verdicts, standing, tallies)
        };
        shown(self.place, bytes, |bytes| {
            shown(self.place, table, |table| {
                shown(self.place, verdicts, |verdicts| {
                    lent(self.place, tallies, |tallies| call(bytes, table, verdicts, tallies))
                })
            })
        })
    }

    /// Makes every tally 0.
    pub fn clear(self, tallies: &mut [u32]) {
        if self.piped {
            self.call(pipe::CLEAR, &[], &mut [Room::Lent(tallies)]);
            return;
        }
        lent(self.place, tallies, linked::clear)
    }

    /// Reads one field of a frame.
    pub fn field(self, frame: &[u8], port: u8, number: u32) -> Field {
        if self.piped {
            let numbers = [u32::from(port), number];
            let [kind, value, ..] = self.call(pipe::FIELD, &numbers, &mut [Room::Bytes(frame)]);
            return Field { kind, value };
        }
        shown(self.place, frame, |frame| linked::field(frame, port, number))
    }

    /// The scratch words that a slot takes.
    pub fn scratch_words(self) -> usize {
        if self.piped {
            return self.call(pipe::SCRATCH_WORDS, &[], &mut [])[0] as usize;
        }
        linked::scratch_words()
    }
}
