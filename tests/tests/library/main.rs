//! The static library against the reference, on lists and frames of every sort. A failing case
//! prints the list, the frame and both answers. At the end comes what the run has met: none of it
//! may be zero.

mod contents;
mod cuts;
mod damage;
mod edges;
mod faults;
mod gateway;
mod groups;
mod halves;
mod headers;
mod lamp;
mod numbers;
mod random_lists;
mod rooms;
mod stored;
mod support;

use filterbox_tests::cases::{GATEWAY_RUNS, OTHER_CONTENTS, RANDOM_LISTS};
use filterbox_tests::coverage::Coverage;
use filterbox_tests::library::library;
use filterbox_tests::runner::Runner;

fn main() {
    let mut runner = Runner::new();
    println!("the library is {}", library().way());
    RANDOM_LISTS.tell();
    GATEWAY_RUNS.tell();
    OTHER_CONTENTS.tell();
    let mut coverage = Coverage::default();
    numbers::run(&mut runner, &mut coverage);
    groups::run(&mut runner, &mut coverage);
    halves::run(&mut runner, &mut coverage);
    faults::run(&mut runner, &mut coverage);
    headers::run(&mut runner, &mut coverage);
    cuts::run(&mut runner, &mut coverage);
    damage::run(&mut runner, &mut coverage);
    lamp::run(&mut runner, &mut coverage);
    rooms::run(&mut runner, &mut coverage);
    gateway::run(&mut runner, &mut coverage);
    let contents = contents::run(&mut runner);
    stored::run(&mut runner, &mut coverage);
    random_lists::run(&mut runner, &mut coverage);
    // Last, since a call that leaves its memory ends the run here.
    edges::run(&mut runner, &mut coverage);
    let (report, missing) = coverage.report();
    println!("\nWhat the run has met\n{report}\nother contents: {contents:?}\n");
    if runner.runs_all() {
        runner.check("coverage_has_no_zero", || assert!(missing.is_empty(), "{missing:?}"));
        runner.check("coverage_is_large_enough", || {
            assert!(coverage.lists >= 20_000 && coverage.frames >= 200_000);
            assert!(coverage.later_fragments.iter().all(|&count| count >= 2_000));
        });
    }
    runner.finish();
}
