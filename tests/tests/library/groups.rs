//! Group 0 means on its own (document 02, P6): what its filters match, beside other groups and after
//! a move to group 1. What is expected here follows from the filters that hold, without ranks.

use filterbox_tests::builder::records;
use filterbox_tests::coverage::Coverage;
use filterbox_tests::examples::{echo_in_one_group, test};
use filterbox_tests::fields::read;
use filterbox_tests::frames::{echo_request, towards, Frame};
use filterbox_tests::lists::{list, style};
use filterbox_tests::random::Random;
use filterbox_tests::rules::{read_list, tests, words, Filter, EQUAL, ON_ITS_OWN};
use filterbox_tests::runner::Runner;
use filterbox_tests::scanner::filter_holds;
use filterbox_tests::sizes::Set;
use filterbox_tests::walker::DONE;

use crate::support::{build_in_slots, check_frame, classify_noted, Outcome};

const SEED: u64 = 0x5EED_0000_0600;
const LISTS: usize = 1_500;
const FRAMES_A_LIST: usize = 4;
const SLOTS: usize = 300;

pub fn run(runner: &mut Runner, coverage: &mut Coverage) {
    runner.check("group_0_at_every_level_and_place", || levels_and_places(coverage));
    runner.check("the_example_all_in_group_0", || example(coverage));
    runner.check("group_0_names_every_filter_that_holds", || monitoring(coverage));
    runner.check("group_0_and_other_groups_leave_each_other_alone", || mixed(coverage));
    runner.check("one_group_but_0_names_the_topmost", || moved(coverage));
}

/// A list built in as many slots as it needs; none where it has too many states.
fn compiled(filters: &[Filter], coverage: &mut Coverage) -> Option<Outcome> {
    let states = records(filters, SLOTS)?.len();
    Some(build_in_slots(&words(filters), states, coverage))
}

/// The sure set of a frame once all is asked.
fn match_set(filters: &[Filter], frame: &Frame, built: &Outcome, coverage: &mut Coverage) -> Set {
    check_frame(filters, frame, built, coverage);
    let all = tests(filters) as u32;
    let answer = classify_noted(frame, &built.table, built.states(), all, coverage);
    assert_eq!(answer.ended, DONE);
    answer.sure
}

/// The match set of one frame by a list of few states.
fn matched(filters: &[Filter], frame: &Frame, coverage: &mut Coverage) -> Set {
    let built = compiled(filters, coverage).expect("few states");
    match_set(filters, frame, &built, coverage)
}

/// The filters of a group that hold, as numbers.
fn holding(filters: &[Filter], group: impl Fn(u32) -> bool, frame: &Frame) -> Vec<usize> {
    let readings = read(&frame.bytes, frame.port);
    let holds = |i: &usize| group(filters[*i].group) && filter_holds(&filters[*i], &readings);
    (0..filters.len()).filter(holds).collect()
}

fn set(numbers: &[usize]) -> Set {
    numbers.iter().fold(0, |set, i| set | 1 << i)
}

/// Two filters that hold, in each order of groups and levels: only in one group other than 0 does
/// one of them beat the other.
fn levels_and_places(coverage: &mut Coverage) {
    let frame = Frame { bytes: vec![0; 60], port: 7 };
    let asks = vec![test(EQUAL, 13, 255, 7)];
    for (a, b) in [(0, 0), (0, 1), (1, 0), (1, 1), (0, 255), (255, 0), (255, 255)] {
        for (up, down) in [(0, 0), (255, 255), (1, 0), (0, 1), (255, 0), (0, 255)] {
            let both = [(a, up), (b, down)];
            let filters = both.map(|(group, level)| Filter { group, level, tests: asks.clone() });
            let beaten = if a == 0 || a != b {
                0
            } else if up >= down {
                2
            } else {
                1
            };
            let found = matched(&filters, &frame, coverage);
            assert_eq!(found, 3 & !beaten, "groups {a} and {b}, levels {up} and {down}");
        }
    }
}

/// In group 1 the echo request with time to live 1 matches one filter, in group 0 each that holds.
fn example(coverage: &mut Coverage) {
    for levels in [[3, 2, 1], [1, 2, 3], [2, 2, 2]] {
        let mut filters = read_list(&echo_in_one_group(levels)).expect("well-formed");
        for filter in &mut filters {
            filter.group = ON_ITS_OWN;
        }
        assert_eq!(matched(&filters, &echo_request(1), coverage), 5, "levels {levels:?}");
    }
}

/// Random lists, each with the source of its frames.
fn random_lists(salt: u64, mut check: impl FnMut(&mut Random, Vec<Filter>)) {
    for case in 0..LISTS {
        let random = &mut Random::case(SEED ^ salt, case as u64);
        let filters = list(random, style(case, LISTS));
        check(random, filters);
    }
}

/// Some frames towards a list, each with its match set; none where the list has too many states.
fn frames(random: &mut Random, filters: &[Filter], coverage: &mut Coverage) -> Vec<(Frame, Set)> {
    let Some(built) = compiled(filters, coverage) else { return Vec::new() };
    let mut found = |_| {
        let frame = towards(random, filters);
        let set = match_set(filters, &frame, &built, coverage);
        (frame, set)
    };
    (0..FRAMES_A_LIST).map(&mut found).collect()
}

fn monitoring(coverage: &mut Coverage) {
    let mut several = 0;
    random_lists(1, |random, mut filters| {
        for filter in &mut filters {
            filter.group = ON_ITS_OWN;
        }
        for (frame, found) in frames(random, &filters, coverage) {
            let holding = holding(&filters, |_| true, &frame);
            assert_eq!(found, set(&holding), "{:?}", words(&filters));
            several += usize::from(holding.len() > 1);
        }
    });
    assert!(several > LISTS / 2, "frames that more than one filter matches: {several}");
}

/// The filters of group 0 match where they hold; the others match as if those were not there.
fn mixed(coverage: &mut Coverage) {
    let mut both = 0;
    random_lists(2, |random, mut filters| {
        for filter in &mut filters {
            if random.once_in(2) {
                filter.group = ON_ITS_OWN;
            }
        }
        let ranking: Vec<usize> =
            (0..filters.len()).filter(|&i| filters[i].group != ON_ITS_OWN).collect();
        let others: Vec<Filter> = ranking.iter().map(|&i| filters[i].clone()).collect();
        let Some(built) = compiled(&others, coverage) else { return };
        for (frame, found) in frames(random, &filters, coverage) {
            let alone = set(&holding(&filters, |group| group == ON_ITS_OWN, &frame));
            let among = match_set(&others, &frame, &built, coverage);
            let chosen = |&k: &usize| among >> k & 1 == 1;
            let rest: Vec<usize> = (0..others.len()).filter(chosen).map(|k| ranking[k]).collect();
            assert_eq!(found, alone | set(&rest), "{:?}", words(&filters));
            both += usize::from(alone != 0 && !rest.is_empty());
        }
    });
    assert!(both > LISTS / 10, "frames that filters of group 0 and others match: {both}");
}

/// What a list of group 0 had before, it has in group 1: of the filters that hold the topmost.
fn moved(coverage: &mut Coverage) {
    let mut beaten = 0;
    random_lists(3, |random, mut filters| {
        let group = random.pick(&[1, 1, 1, 2, 255]);
        for filter in &mut filters {
            filter.group = group;
        }
        for (frame, found) in frames(random, &filters, coverage) {
            let holding = holding(&filters, |_| true, &frame);
            let highest = holding.iter().map(|&i| filters[i].level).max();
            let top = holding.iter().find(|&&i| Some(filters[i].level) == highest);
            assert_eq!(found, top.map_or(0, |i| 1 << i), "{:?}", words(&filters));
            beaten += holding.len().saturating_sub(1);
        }
    });
    assert!(beaten > LISTS / 2, "beaten filters: {beaten}");
}
