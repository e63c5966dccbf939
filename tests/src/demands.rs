//! What the answers for one frame must be at every allowance, said of any way to get them: the
//! library's walk or the reference's.
//!
//! With enough questions the sure set is the match set. With fewer, the sets are those of the
//! residue rules after as many outcomes, and a filter once sure or out stays so. The mark says whether
//! one of these questions met a field that was cut off.

use crate::brute::{path, Point};
use crate::coverage::Coverage;
use crate::cut::glance;
use crate::fields::{read, FIELDS};
use crate::frames::Frame;
use crate::lamp::Lamp;
use crate::residue::Outcome;
use crate::rules::{tests, words, Filter, Test};
use crate::scanner::match_set;
use crate::sizes::Set;
use crate::walker::{Answer, DONE, STOPPED};

/// A list and a frame, as a failing case prints them.
pub fn describe(list: &[u32], frame: &Frame) -> String {
    let items: Vec<String> = list.iter().map(u32::to_string).collect();
    let bytes: String = frame.bytes.iter().map(|byte| format!("{byte:02x}")).collect();
    format!(
        "list: {}\nframe ({} bytes, port {}): {bytes}",
        items.join(" "),
        frame.bytes.len(),
        frame.port
    )
}

/// The answer after so many questions at the most; `found` are the fields that longer frames have.
fn expected(points: &[Point], found: &[bool; FIELDS], allowance: u32) -> Answer {
    let last = points.len() - 1;
    let at = last.min(allowance as usize);
    let ended = if at == last { DONE } else { STOPPED };
    let met = |(question, outcome): (Test, Outcome)| {
        outcome == Outcome::Absent && found[question.field as usize]
    };
    let cut = u32::from(points[..at].iter().filter_map(|point| point.asked).any(met));
    Answer { ended, refusal: 0, sure: points[at].sure, out: points[at].out, asked: at as u32, cut }
}

/// The set of all filters of a list.
fn every(filters: &[Filter]) -> Set {
    filters.iter().enumerate().fold(0, |set, (i, _)| set | 1 << i)
}

/// What must be so of a path whatever the residue rules say in detail.
fn check_path(filters: &[Filter], points: &[Point], matches: Set) -> Result<(), String> {
    let questions: Vec<_> = points.iter().filter_map(|point| point.asked).collect();
    if questions.len() > tests(filters) {
        return Err(format!("{} questions on a path", questions.len()));
    }
    for (i, (question, _)) in questions.iter().enumerate() {
        if questions[..i].iter().any(|(earlier, _)| earlier == question) {
            return Err(format!("{question:?} is asked twice"));
        }
    }
    for pair in points.windows(2) {
        if pair[0].sure & !pair[1].sure != 0 || pair[0].out & !pair[1].out != 0 {
            return Err(format!("a set loses a filter: {:?} then {:?}", pair[0], pair[1]));
        }
    }
    for point in points {
        if point.sure & !matches != 0 || point.out & matches != 0 {
            return Err(format!("{point:?}, while the scanner says {matches:b}"));
        }
    }
    let end = points.last().expect("a path has a start");
    if end.sure != matches || end.sure | end.out != every(filters) {
        return Err(format!("the path ends with {end:?}, the scanner says {matches:b}"));
    }
    Ok(())
}

/// Compares what `classify` answers for a frame, at each allowance up to the list's tests and at
/// the greatest, with the scanner and the residue rules.
pub fn check(
    filters: &[Filter],
    frame: &Frame,
    coverage: &mut Coverage,
    mut classify: impl FnMut(u32) -> Answer,
) -> Result<(), String> {
    let readings = read(&frame.bytes, frame.port);
    let matches = match_set(filters, &readings);
    let points = path(filters, &readings);
    let found = glance(&frame.bytes);
    let tell = |text: String| format!("{text}\n{}", describe(&words(filters), frame));
    check_path(filters, &points, matches).map_err(tell)?;
    coverage.frame(frame);
    coverage.holding(filters, &readings, matches);
    for (question, outcome) in points.iter().filter_map(|point| point.asked) {
        coverage.question(&question, outcome);
    }
    let allowances = (0..=tests(filters) as u32).chain([u32::MAX]);
    for allowance in allowances {
        let answer = classify(allowance);
        coverage.answer(&answer);
        let should = expected(&points, &found, allowance);
        if answer != should {
            return Err(tell(format!(
                "allowance {allowance}: got {answer:?}, should be {should:?}"
            )));
        }
    }
    // All questions of a list are enough, however the frame turns out.
    let full = expected(&points, &found, tests(filters) as u32);
    if full.ended != DONE || full.sure != matches {
        return Err(tell(format!("not done after all tests: {full:?}, scanner {matches:b}")));
    }
    Ok(())
}

/// Compares what the lamp shows of a built table with the scanner and the residue rules: it is lit where
/// anything matches, and ends at the first point of the frame's path where all tests of some filter
/// are known to hold or nothing is left to ask.
pub fn check_lamp(
    filters: &[Filter],
    frame: &Frame,
    coverage: &mut Coverage,
    lamp: Lamp,
) -> Result<(), String> {
    let readings = read(&frame.bytes, frame.port);
    let points = path(filters, &readings);
    let ends = |point: &Point| point.held || point.asked.is_none();
    let asked = points.iter().position(ends).expect("a path ends");
    let lit = u32::from(match_set(filters, &readings) != 0);
    let should = Lamp { refusal: 0, filter: 0, lit, asked: asked as u32 };
    if lamp != should {
        let case = describe(&words(filters), frame);
        return Err(format!("lamp: got {lamp:?}, should be {should:?}\n{case}"));
    }
    coverage.lamp(&lamp, points[asked].sure);
    Ok(())
}
