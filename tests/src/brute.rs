//! The sets after each outcome of a frame's path, without states or tables.
//!
//! What is known of a filter follows from its own tests and from those of the filters ranking above
//! it: it is out where one of its tests is false or where one above it has only true tests, however
//! the path came there. So nothing is carried along but what is left of each test of the list. The
//! builder, in contrast, steps from state to state as document 01 tells it; that both agree is one
//! of the things tried.

use crate::fields::{full, Readings};
use crate::residue::{fact, residue, Left, Outcome};
use crate::rules::{above, Filter, Test};
use crate::sizes::Set;

/// A place on a frame's path: the sets there, and what is asked there with how it ends, or none
/// where the path ends.
#[derive(Clone, Copy, PartialEq, Eq, Debug)]
pub struct Point {
    pub sure: Set,
    pub out: Set,
    /// All tests of some filter are known to hold.
    pub held: bool,
    pub asked: Option<(Test, Outcome)>,
}

/// What is left of each test of each filter.
type Remains = Vec<Vec<Left>>;

/// How a question ends on a frame with these readings.
pub fn outcome(question: &Test, readings: &Readings) -> Outcome {
    match readings[question.field as usize] {
        None => Outcome::Absent,
        Some(x) if question.of(x) => Outcome::Holds,
        Some(_) => Outcome::Fails,
    }
}

/// All points of a frame's path, from the start to its end.
pub fn path(filters: &[Filter], readings: &Readings) -> Vec<Point> {
    path_by(filters, &mut |question| outcome(question, readings))
}

/// The same, with each question's outcome told by `answer`.
pub fn path_by(filters: &[Filter], answer: &mut dyn FnMut(&Test) -> Outcome) -> Vec<Point> {
    let mut remains: Remains = filters
        .iter()
        .map(|filter| filter.tests.iter().map(|&test| Left::Test(test)).collect())
        .collect();
    let mut points = Vec::new();
    loop {
        let out = out_set(filters, &remains);
        let sure = sure_set(filters, &remains, out);
        // One that is beaten by another leaves that other.
        let held = remains.iter().any(|tests| all_true(tests));
        let Some(question) = question(&remains, out) else {
            points.push(Point { sure, out, held, asked: None });
            return points;
        };
        let ends = answer(&question);
        points.push(Point { sure, out, held, asked: Some((question, ends)) });
        learn(&mut remains, &question, ends);
    }
}

/// Gives the outcome's fact to every test that is still left.
fn learn(remains: &mut Remains, question: &Test, ends: Outcome) {
    let learnt = fact(*question, ends, full(question.field));
    for left in remains.iter_mut().flatten() {
        if let Left::Test(test) = *left {
            *left = residue(test, learnt, full(test.field));
        }
    }
}

fn all_true(tests: &[Left]) -> bool {
    tests.iter().all(|left| *left == Left::True)
}

fn out_set(filters: &[Filter], remains: &Remains) -> Set {
    (0..filters.len())
        .filter(|&i| {
            remains[i].contains(&Left::False)
                || (0..filters.len()).any(|j| above(filters, j, i) && all_true(&remains[j]))
        })
        .fold(0, |set, i| set | 1 << i)
}

fn sure_set(filters: &[Filter], remains: &Remains, out: Set) -> Set {
    let is_out = |i: usize| out >> i & 1 == 1;
    (0..filters.len())
        .filter(|&i| !is_out(i) && all_true(&remains[i]))
        .filter(|&i| (0..filters.len()).all(|j| !above(filters, j, i) || is_out(j)))
        .fold(0, |set, i| set | 1 << i)
}

/// The first remaining test of the first filter that has any and is not out.
fn question(remains: &Remains, out: Set) -> Option<Test> {
    (0..remains.len()).filter(|&i| out >> i & 1 == 0).flat_map(|i| &remains[i]).find_map(|left| {
        match left {
            Left::Test(test) => Some(*test),
            _ => None,
        }
    })
}
