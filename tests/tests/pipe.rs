//! The way over the pipe, so that it is tried on every processor: some hundred cases, of which every
//! answer and every word must be those of the library as this run has it and of the reference; and a
//! far end that sees what leaves its room.

use filterbox_tests::builder::{self, Built, RECORD_WORDS};
use filterbox_tests::examples::{empty_filters, ECHO};
use filterbox_tests::frames::{echo_request, towards, Frame};
use filterbox_tests::gateway::{self, Setting};
use filterbox_tests::lamp;
use filterbox_tests::library::{library, Library};
use filterbox_tests::lists::{faulty, list, style};
use filterbox_tests::pipe::{self, Call, Place, Room};
use filterbox_tests::random::Random;
use filterbox_tests::rules::{read_list, words};
use filterbox_tests::runner::Runner;
use filterbox_tests::tools::of_the_toolchain;
use filterbox_tests::walker;

const SEED: u64 = 0x919E;
const CASES: usize = 400;
const PLACES: [Place; 3] = [Place::Middle, Place::Front, Place::Back];

fn main() {
    let mut runner = Runner::new();
    println!("held against the library {}, {CASES} lists", library().way());
    let checks: [(&str, fn()); 4] = [
        ("the_pipe_gives_the_librarys_answers", answers),
        ("the_pipe_takes_rooms_of_any_length", lengths),
        ("the_far_end_sees_a_write_beside_a_room", written_beside),
        ("a_call_that_leaves_its_pages_ends_the_far_end_alone", left_pages),
    ];
    for (name, check) in checks {
        runner.attempt(name, of_the_toolchain(check));
    }
    runner.finish();
}

fn answers() {
    assert_eq!(Library::piped().scratch_words(), library().scratch_words());
    for case in 0..CASES {
        one_case(case);
    }
}

/// A build by all three; the words are old ones that must not matter.
fn build(place: Place, list: &[u32], table: usize, scratch: usize) -> (Built, Vec<u32>) {
    let slot_words = library().scratch_words();
    let old = |length: usize, salt: u32| (0..length as u32).map(|i| i ^ salt).collect::<Vec<_>>();
    let rooms = || (old(table, 0x5A5A_0000), old(scratch, 0xA5A5_0000));
    let (mut far, mut here, mut should) = (rooms(), rooms(), rooms());
    let over_the_pipe = Library::piped().at(place).build(list, &mut far.0, &mut far.1);
    let by_this_run = library().at(place).build(list, &mut here.0, &mut here.1);
    let by_reference = builder::build(list, &mut should.0, &mut should.1, slot_words);
    assert_eq!(over_the_pipe, by_this_run, "{list:?}");
    assert_eq!(over_the_pipe, by_reference, "{list:?}");
    assert!(far == here && far == should, "words of {list:?}");
    (over_the_pipe, far.0)
}

fn one_case(case: usize) {
    let random = &mut Random::case(SEED, case as u64);
    let place = random.pick(&PLACES);
    let style = style(case, CASES);
    if random.once_in(4) {
        build(place, &faulty(random, style), 30, 3 * library().scratch_words());
        return;
    }
    let filters = list(random, style);
    let slots = random.between(1, 60);
    let (table, scratch) =
        (slots * RECORD_WORDS + random.below(RECORD_WORDS), slots * library().scratch_words());
    let (built, table) = build(place, &words(&filters), table, scratch + random.below(3));
    for _ in 0..3 {
        let frame = towards(random, &filters);
        // A table that was refused is all zeros, and its number of states is any.
        let states = if built.refusal == 0 { built.number } else { random.below(3) as u32 };
        let list = words(&filters);
        let ask = |by: Library| by.at(place).lamp(&list, &frame.bytes, frame.port, &table, states);
        let over_the_pipe = ask(Library::piped());
        assert_eq!(over_the_pipe, ask(library()), "{frame:?}");
        assert_eq!(over_the_pipe, lamp::lamp(&list, &frame, &table, states), "{frame:?}");
        for allowance in [0, 1, 4, u32::MAX] {
            let ask = |by: Library| {
                by.at(place).classify(&frame.bytes, frame.port, &table, states, allowance)
            };
            let over_the_pipe = ask(Library::piped());
            assert_eq!(over_the_pipe, ask(library()), "{frame:?}");
            let walked = walker::classify(&frame.bytes, frame.port, &table, states, allowance);
            assert_eq!(over_the_pipe, walked, "{frame:?}");
        }
        judge(place, &frame, &table, states, random.once_in(8));
    }
}

/// Judging by all three, then clearing.
fn judge(place: Place, frame: &Frame, table: &[u32], states: u32, full: bool) {
    let verdicts: Vec<u32> = (0..64).map(|i| i % 3).collect();
    let by = Setting { table, states, verdicts: &verdicts, standing: 1 };
    let mut should = vec![if full { u32::MAX } else { 5 }; 65];
    let (mut far, mut here) = (should.clone(), should.clone());
    let ask = |library: Library, tallies: &mut [u32]| library.at(place).judge(frame, &by, tallies);
    let over_the_pipe = ask(Library::piped(), &mut far);
    assert_eq!(over_the_pipe, ask(library(), &mut here), "{frame:?}");
    assert_eq!(over_the_pipe, gateway::judge(frame, &by, &mut should), "{frame:?}");
    assert!(far == here && far == should, "tallies of {frame:?}");
    Library::piped().at(place).clear(&mut far);
    library().at(place).clear(&mut here);
    assert!(far == [0; 65] && here == [0; 65]);
}

fn lengths() {
    let slot_words = library().scratch_words();
    for place in PLACES {
        assert_eq!(build(place, &[], 0, 0).0.refusal, 11);
        assert_eq!(build(place, &empty_filters(65), 11, 0).0.refusal, 1);
        assert_eq!(build(place, &ECHO, 110, 10 * slot_words).0.number, 10);
        let most = builder::MOST_SLOTS;
        assert_eq!(build(place, &ECHO, most * RECORD_WORDS + 5, most * slot_words).0.number, 10);
    }
    let echo = builder::records(&read_list(&ECHO).expect("well-formed"), 10).expect("ten");
    for length in [0, 1, 13, 14, 34, 1521, 1522, 1523, 65_536, 100_000] {
        let mut bytes = echo_request(1).bytes;
        bytes.resize(length, 0);
        for place in PLACES {
            let table = &echo.concat();
            let answer = Library::piped().at(place).classify(&bytes, 1, table, 10, 9);
            assert_eq!(answer, walker::classify(&bytes, 1, table, 10, 9), "{length} bytes");
        }
    }
}

/// Touches one byte, counted from the room's first, by reading or by writing it.
fn touch(place: Place, room: Room, at: i32, write: bool) -> Result<u32, String> {
    let call = Call { call: pipe::OVERRUN, place, numbers: &[at as u32, u32::from(write)] };
    pipe::attempt(call, &mut [room]).map(|words| words[0])
}

fn written_beside() {
    let mut words = [0x0101_0101; 10];
    for (place, at) in [
        (Place::Middle, -1),
        (Place::Middle, -64),
        (Place::Middle, 40),
        (Place::Middle, 103),
        (Place::Front, 40),
        (Place::Front, 103),
        (Place::Back, -1),
        (Place::Back, -64),
    ] {
        let said = touch(place, Room::Lent(&mut words), at, true).expect_err("a guard byte");
        assert!(said.contains("bytes beside room 0 were written"), "{said}");
    }
    assert_eq!(touch(Place::Middle, Room::Lent(&mut words), 39, true), Ok(0));
    assert_eq!(words[9], 0x0201_0101);
    let said = touch(Place::Middle, Room::Shown(&words), 39, true).expect_err("only shown");
    assert!(said.contains("room 0, lent for reading, was written"), "{said}");
    assert_eq!(touch(Place::Front, Room::Bytes(&[7; 5]), 4, false), Ok(7));
}

fn left_pages() {
    let mut words = [0; 10];
    for (place, at) in [(Place::Front, -1), (Place::Back, 40)] {
        for write in [false, true] {
            let said = touch(place, Room::Lent(&mut words), at, write).expect_err("no page there");
            assert!(said.contains("the far end of the pipe"), "{said}");
            // The next call finds a new far end.
            assert_eq!(Library::piped().scratch_words(), library().scratch_words());
        }
        let said = touch(place, Room::Shown(&words), 8, true).expect_err("for reading only");
        assert!(said.contains("the far end of the pipe"), "{said}");
    }
}
