//! The reference builder: from a list to the words of table and scratch afterwards
//! (document 01, "States and the table" and "Refusal numbers").

use std::collections::HashMap;

/// What a build answers: refusal 0 and the number of states, or the refusal and the filter's number
/// or 0.
pub use filterbox_sys::Built;

pub use crate::sizes::{MOST_SCRATCH_WORDS, MOST_SLOTS, RECORD_WORDS};

use crate::fields::full;
use crate::residue::{fact, residue, Fact, Left, OUTCOMES};
use crate::rules::{above, read_list, Filter, Test};
use crate::sizes::{put_set, Set, HOLDS_AT, OUT_AT, SURE_AT, TEST_WORDS};

pub type Record = [u32; RECORD_WORDS];

/// A record of these words and sets.
pub fn record(question: [u32; TEST_WORDS], next: [u32; 3], sure: Set, out: Set) -> Record {
    let mut record = [0; RECORD_WORDS];
    record[..HOLDS_AT].copy_from_slice(&question);
    record[HOLDS_AT..SURE_AT].copy_from_slice(&next);
    put_set(&mut record, SURE_AT, sure);
    put_set(&mut record, OUT_AT, out);
    record
}

/// A filter's remaining tests, or none where it is out.
type Remaining = Option<Vec<Test>>;

/// What is said of each filter.
pub type State = Vec<Remaining>;

/// The slots that so many table words make.
pub fn slots(table_words: usize) -> usize {
    (table_words / RECORD_WORDS).min(MOST_SLOTS)
}

/// Builds a list in lent words, of which a slot takes so many from the scratch.
pub fn build(list: &[u32], table: &mut [u32], scratch: &mut [u32], slot_words: usize) -> Built {
    let filters = match read_list(list) {
        Ok(filters) => filters,
        Err(refused) => return Built { refusal: refused.refusal, number: refused.filter },
    };
    let slots = slots(table.len());
    if scratch.len() < slots * slot_words {
        return Built { refusal: 10, number: 0 };
    }
    scratch[..slots * slot_words].fill(0);
    let Some(records) = records(&filters, slots) else {
        table[..slots * RECORD_WORDS].fill(0);
        return Built { refusal: 11, number: 0 };
    };
    for (n, record) in records.iter().enumerate() {
        table[n * RECORD_WORDS..][..RECORD_WORDS].copy_from_slice(record);
    }
    Built { refusal: 0, number: records.len() as u32 }
}

/// Which of its remaining tests a state asks; none in a final state.
pub type Pick = fn(&State) -> Option<Test>;

/// The records of all states in the order of their numbers, or none where there are more states
/// than slots.
pub fn records(filters: &[Filter], slots: usize) -> Option<Vec<Record>> {
    records_by(filters, slots, question)
}

/// The same with another pick of questions.
pub fn records_by(filters: &[Filter], slots: usize, pick: Pick) -> Option<Vec<Record>> {
    Some(states_by(filters, slots, pick)?.into_iter().map(|(_, record)| record).collect())
}

/// The records, each behind its state.
pub fn states(filters: &[Filter], slots: usize) -> Option<Vec<(State, Record)>> {
    states_by(filters, slots, question)
}

fn states_by(filters: &[Filter], slots: usize, pick: Pick) -> Option<Vec<(State, Record)>> {
    let numbers = HashMap::new();
    let mut building = Building { filters, slots, pick, numbers, records: Vec::new() };
    building.state(start(filters))?;
    let mut states: Vec<(State, u32)> = building.numbers.into_iter().collect();
    states.sort_by_key(|&(_, number)| number);
    Some(states.into_iter().map(|(state, _)| state).zip(building.records).collect())
}

struct Building<'a> {
    filters: &'a [Filter],
    slots: usize,
    pick: Pick,
    numbers: HashMap<State, u32>,
    records: Vec<Record>,
}

impl Building<'_> {
    /// The number of a state; a state first met is built, with all that its ways lead to.
    fn state(&mut self, state: State) -> Option<u32> {
        if let Some(&number) = self.numbers.get(&state) {
            return Some(number);
        }
        let number = self.records.len();
        if number == self.slots {
            return None;
        }
        let (sure, out) = (sure_set(self.filters, &state), out_set(&state));
        self.records.push(record([0; TEST_WORDS], [0; 3], sure, out));
        self.numbers.insert(state.clone(), number as u32);
        if let Some(question) = (self.pick)(&state) {
            self.records[number][..TEST_WORDS].copy_from_slice(&question.words());
            for (way, outcome) in OUTCOMES.into_iter().enumerate() {
                let learnt = fact(question, outcome, full(question.field));
                let next = self.state(step(self.filters, &state, learnt))?;
                self.records[number][HOLDS_AT + way] = next;
            }
        }
        Some(number as u32)
    }
}

/// The state before any question.
pub fn start(filters: &[Filter]) -> State {
    let mut state = filters.iter().map(|filter| Some(filter.tests.clone())).collect();
    drop_beaten(filters, &mut state);
    state
}

/// The state after a fact.
pub fn step(filters: &[Filter], state: &State, learnt: Fact) -> State {
    let mut next = state.iter().map(|remaining| divide(remaining, learnt)).collect();
    drop_beaten(filters, &mut next);
    next
}

/// A filter's remaining tests after a fact: out where one is false, without those that are true.
fn divide(remaining: &Remaining, learnt: Fact) -> Remaining {
    let mut rest = Vec::new();
    for &test in remaining.as_ref()? {
        match residue(test, learnt, full(test.field)) {
            Left::False => return None,
            Left::True => {}
            Left::Test(left) => rest.push(left),
        }
    }
    Some(rest)
}

fn held(remaining: &Remaining) -> bool {
    remaining.as_ref().is_some_and(Vec::is_empty)
}

/// Puts out each filter that ranks below a held one, the held ones among them as well.
fn drop_beaten(filters: &[Filter], state: &mut State) {
    let holding: Vec<usize> = (0..state.len()).filter(|&i| held(&state[i])).collect();
    for (i, remaining) in state.iter_mut().enumerate() {
        if holding.iter().any(|&j| above(filters, j, i)) {
            *remaining = None;
        }
    }
}

/// The first remaining test of the first filter that has any; none in a final state.
pub fn question(state: &State) -> Option<Test> {
    state.iter().flatten().find_map(|tests| tests.first().copied())
}

pub fn out_set(state: &State) -> Set {
    (0..state.len()).filter(|&i| state[i].is_none()).fold(0, |set, i| set | 1 << i)
}

/// Each held filter above which all are out.
pub fn sure_set(filters: &[Filter], state: &State) -> Set {
    (0..state.len())
        .filter(|&i| held(&state[i]))
        .filter(|&i| (0..state.len()).all(|j| !above(filters, j, i) || state[j].is_none()))
        .fold(0, |set, i| set | 1 << i)
}
