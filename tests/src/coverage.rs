//! What a run has met. A number that stays zero means that the run did not try what it says.

use std::collections::HashMap;
use std::hash::Hash;

use crate::builder::{Record, State};
use crate::fields::{later_fragment, read, Readings, FIELDS, ICMP, NAMES, TCP, UDP};
use crate::frames::{Frame, MORE_FRAGMENTS};
use crate::lamp::Lamp;
use crate::residue::{Outcome, OUTCOMES};
use crate::rules::{above, Filter, Test, ON_ITS_OWN};
use crate::scanner::filter_holds;
use crate::sizes::{Set, SURE_AT, TEST_WORDS};
use crate::walker::Answer;

/// The refusal numbers of the library's calls: building, scanning, classifying, judging.
const REFUSALS: [usize; 16] = [1, 2, 3, 4, 5, 6, 7, 8, 9, 10, 11, 12, 13, 15, 16, 24];
const MOST_REFUSAL: usize = 24;
const KINDS: [&str; 4] = ["equal", "differs", "at most", "at least"];
const PROTOCOLS: [u32; 3] = [ICMP, TCP, UDP];
const ENDED: [&str; 3] = ["refused", "done", "stopped"];

#[derive(Default)]
pub struct Coverage {
    pub lists: u64,
    pub built: u64,
    pub states: u64,
    pub frames: u64,
    pub answers: u64,
    refusals: [u64; MOST_REFUSAL + 1],
    kinds: [[u64; 3]; 4],
    fields: [[u64; 3]; FIELDS],
    ended: [u64; 3],
    /// Answers that are not refused, without the mark of cut fields and with it.
    marks: [u64; 2],
    /// Lamps lit, dark, and those lit while no filter was sure; and those refused with 13.
    lamps: [u64; 3],
    damaged_lamps: u64,
    /// Fragments with offset 0 and more to come, and those with another offset, by protocol.
    first_fragments: [u64; 3],
    pub later_fragments: [u64; 3],
    /// Pairs of filters: one ranks above the other; both in group 0 at different levels; both in
    /// group 0 at one level.
    pub pairs: [u64; 3],
    /// Filters that hold: beaten by another; in group 0 beside another that holds there.
    pub holding: [u64; 2],
    /// Pairs of states of one list that differ in the first filter alone and in the last alone, and
    /// pairs that differ though their records ask the same question and have the same sets.
    pub near: [u64; 3],
}

impl Coverage {
    /// Counts the pairs of filters of a list.
    pub fn pairs(&mut self, filters: &[Filter]) {
        for b in 0..filters.len() {
            for a in 0..b {
                let (x, y) = (&filters[a], &filters[b]);
                if above(filters, a, b) || above(filters, b, a) {
                    self.pairs[0] += 1;
                }
                if x.group == ON_ITS_OWN && y.group == ON_ITS_OWN {
                    self.pairs[if x.level == y.level { 2 } else { 1 }] += 1;
                }
            }
        }
    }

    /// Counts the filters that hold of a frame whose match set is this.
    pub fn holding(&mut self, filters: &[Filter], readings: &Readings, matches: Set) {
        let holding = |i: &usize| filter_holds(&filters[*i], readings);
        let all: Vec<usize> = (0..filters.len()).filter(holding).collect();
        self.holding[0] += all.iter().filter(|&&i| matches >> i & 1 == 0).count() as u64;
        let alone = all.iter().filter(|&&i| filters[i].group == ON_ITS_OWN).count() as u64;
        self.holding[1] += if alone > 1 { alone } else { 0 };
    }

    pub fn frame(&mut self, frame: &Frame) {
        self.frames += 1;
        let readings = read(&frame.bytes, frame.port);
        let (Some(place), Some(protocol)) = (readings[3], readings[5]) else { return };
        let Some(i) = PROTOCOLS.iter().position(|&p| p == protocol) else { return };
        if later_fragment(&readings) {
            self.later_fragments[i] += 1;
        } else if place & MORE_FRAGMENTS != 0 {
            self.first_fragments[i] += 1;
        }
    }

    /// Counts the states of a list of two filters or more that are hard to tell apart.
    pub fn stored(&mut self, states: &[(State, Record)]) {
        if states[0].0.len() < 2 {
            return;
        }
        self.near[0] += pairs(states.iter().map(|(state, _)| &state[1..]));
        self.near[1] += pairs(states.iter().map(|(state, _)| &state[..state.len() - 1]));
        self.near[2] +=
            pairs(states.iter().map(|(_, record)| (&record[..TEST_WORDS], &record[SURE_AT..])));
    }

    pub fn refusal(&mut self, refusal: u32) {
        self.refusals[refusal as usize] += 1;
    }

    pub fn answer(&mut self, answer: &Answer) {
        self.answers += 1;
        self.ended[answer.ended as usize] += 1;
        self.refusal(answer.refusal);
        if answer.refusal == 0 {
            self.marks[answer.cut as usize] += 1;
        }
    }

    /// A lamp that was not refused for its list or its frame, and the sure set where it ended.
    pub fn lamp(&mut self, lamp: &Lamp, sure: Set) {
        match (lamp.refusal, lamp.lit) {
            (0, 0) => self.lamps[1] += 1,
            (0, _) => {
                self.lamps[0] += 1;
                self.lamps[2] += u64::from(sure == 0);
            }
            _ => self.damaged_lamps += 1,
        }
    }

    pub fn question(&mut self, test: &Test, outcome: Outcome) {
        let way = OUTCOMES.iter().position(|&o| o == outcome).expect("one of three");
        self.kinds[test.kind as usize - 1][way] += 1;
        self.fields[test.field as usize][way] += 1;
    }

    /// The report, and the names of what was never met.
    pub fn report(&self) -> (String, Vec<String>) {
        let mut lines = vec![format!(
            "lists {}, of which built {} with {} states; frames {}; answers compared {}",
            self.lists, self.built, self.states, self.frames, self.answers
        )];
        let mut missing = Vec::new();
        let mut line = |name: String, counts: &[u64], never: &[usize]| {
            for (i, count) in counts.iter().enumerate() {
                if *count == 0 && !never.contains(&i) {
                    missing.push(format!("{name}, column {i}"));
                }
            }
            lines.push(format!("{name:<28}{}", columns(counts)));
        };
        for refusal in REFUSALS {
            line(format!("refusal {refusal}"), &self.refusals[refusal..=refusal], &[]);
        }
        for (i, name) in ENDED.iter().enumerate() {
            line(format!("ended: {name}"), &self.ended[i..=i], &[]);
        }
        line("cut fields met: no, yes".to_string(), &self.marks, &[]);
        line("refusal 13 by the lamp".to_string(), &[self.damaged_lamps], &[]);
        line("lamps: lit, dark, unsure".to_string(), &self.lamps, &[]);
        line("questions: holds, fails, absent".to_string(), &self.outcomes(), &[]);
        for (i, name) in KINDS.iter().enumerate() {
            line(format!("kind {}, {name}", i + 1), &self.kinds[i], &[]);
        }
        for (i, name) in NAMES.iter().enumerate() {
            // The box port is given with every frame.
            let never: &[usize] = if i == 13 { &[2] } else { &[] };
            line(format!("field {i}, {name}"), &self.fields[i], never);
        }
        line("first fragments: ICMP, TCP, UDP".to_string(), &self.first_fragments, &[]);
        line("later fragments: ICMP, TCP, UDP".to_string(), &self.later_fragments, &[]);
        line("pairs: ranked; group 0: levels, one level".to_string(), &self.pairs, &[]);
        line("holding: beaten, beside in group 0".to_string(), &self.holding, &[]);
        line("states near: first, last, record".to_string(), &self.near, &[]);
        (lines.join("\n"), missing)
    }

    fn outcomes(&self) -> [u64; 3] {
        let mut sums = [0; 3];
        for kind in &self.kinds {
            for (sum, count) in sums.iter_mut().zip(kind) {
                *sum += count;
            }
        }
        sums
    }
}

/// How many pairs of keys are equal.
fn pairs<K: Hash + Eq>(keys: impl Iterator<Item = K>) -> u64 {
    let mut counts = HashMap::new();
    for key in keys {
        *counts.entry(key).or_insert(0) += 1;
    }
    counts.values().map(|&count: &u64| count * (count - 1) / 2).sum()
}

fn columns(counts: &[u64]) -> String {
    counts.iter().map(|count| format!(" {count:>10}")).collect()
}
