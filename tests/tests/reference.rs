//! The reference tried on itself and on what document 01 prints. Needs no library.

use filterbox_tests::brute;
use filterbox_tests::builder::{
    build, out_set, question, records, start, step, sure_set, Built, MOST_SCRATCH_WORDS,
    MOST_SLOTS, RECORD_WORDS,
};
use filterbox_tests::coverage::Coverage;
use filterbox_tests::cut::{longer, models, note, search, ENOUGH, TOTAL};
use filterbox_tests::demands;
use filterbox_tests::examples::{
    behind_impossible, deepest, echo_in_one_group, empty_filters, ends_of_the_range, one_bit_tests,
    residue_cases, test, LeftOver, ECHO, ECHO_RECORDS, WITHOUT_PLACES,
};
use filterbox_tests::fields::{full, greatest, read, Readings, FIELDS, ICMP, TCP, UDP};
use filterbox_tests::frames::{compose, echo_request, fragment, hand_made, towards, Frame, Layout};
use filterbox_tests::lamp::lamp;
use filterbox_tests::lists::{self, style};
use filterbox_tests::program;
use filterbox_tests::random::Random;
use filterbox_tests::residue::{fact, residue, Fact, Left, Outcome, OUTCOMES};
use filterbox_tests::rules::{
    read_list, tests, words, Filter, Refused, Test, AT_LEAST, AT_MOST, DIFFERS, EQUAL,
};
use filterbox_tests::scanner::match_set;
use filterbox_tests::sizes::Set;
use filterbox_tests::walker::{classify, Answer, DONE, STOPPED};

const SEED: u64 = 0x0F17_7E2B_0C5A_11E5;

/// The flat words of a list's records, and their number.
fn table(filters: &[Filter]) -> Option<(Vec<u32>, u32)> {
    let records = records(filters, MOST_SLOTS)?;
    let states = records.len() as u32;
    Some((records.concat(), states))
}

fn states(filters: &[Filter]) -> Option<usize> {
    records(filters, MOST_SLOTS).map(|records| records.len())
}

#[test]
fn the_example_has_its_ten_records() {
    let filters = read_list(&ECHO).expect("well-formed");
    assert_eq!(records(&filters, 16).expect("ten states"), ECHO_RECORDS);
}

#[test]
fn the_example_in_109_and_110_words() {
    let mut scratch = vec![7; 11 * MOST_SCRATCH_WORDS];
    let mut table = vec![9; 109];
    let built = build(&ECHO, &mut table, &mut scratch, MOST_SCRATCH_WORDS);
    assert_eq!(built, Built { refusal: 11, number: 0 });
    assert!(table[..99].iter().all(|&word| word == 0) && table[99..] == [9; 10]);
    let mut table = vec![9; 110];
    let built = build(&ECHO, &mut table, &mut scratch, MOST_SCRATCH_WORDS);
    assert_eq!(built, Built { refusal: 0, number: 10 });
    assert_eq!(table, ECHO_RECORDS.concat());
}

#[test]
fn the_echo_request_at_each_allowance() {
    let frame = echo_request(1);
    let answer = |allowance| classify(&frame.bytes, 0, &ECHO_RECORDS.concat(), 10, allowance);
    let expect = |ended, sure, out, asked| Answer { ended, refusal: 0, sure, out, asked, cut: 0 };
    assert_eq!(answer(0), expect(STOPPED, 0, 0, 0));
    assert_eq!(answer(1), expect(STOPPED, 1, 2, 1));
    assert_eq!(answer(2), expect(DONE, 5, 2, 2));
    assert_eq!(answer(u32::MAX), expect(DONE, 5, 2, 2));
}

#[test]
fn the_example_in_one_group() {
    for (levels, set) in [([3, 2, 1], 1), ([1, 2, 3], 4)] {
        let filters = read_list(&echo_in_one_group(levels)).expect("well-formed");
        let frame = echo_request(1);
        assert_eq!(match_set(&filters, &read(&frame.bytes, 0)), set);
        let (table, states) = table(&filters).expect("few states");
        let answer = classify(&frame.bytes, 0, &table, states, u32::MAX);
        assert_eq!((answer.ended, answer.sure), (DONE, set));
    }
}

#[test]
fn remaining_tests_count_without_their_places() {
    let filters = read_list(&WITHOUT_PLACES).expect("well-formed");
    assert_eq!(states(&filters), Some(15));
}

#[test]
fn lists_whose_states_are_counted_by_hand() {
    assert_eq!(states(&[]), Some(1));
    assert_eq!(states(&read_list(&empty_filters(64)).expect("64 pass")), Some(1));
    for count in 0..=11 {
        assert_eq!(states(&one_bit_tests(count)), Some((2 << count) - 1));
    }
    assert_eq!(states(&one_bit_tests(12)), None);
    assert_eq!(states(&behind_impossible(1, one_bit_tests(11))), Some(4096));
    assert_eq!(states(&behind_impossible(2, one_bit_tests(11))), None);
    assert_eq!(states(&behind_impossible(3, one_bit_tests(3))), Some(18));
    assert_eq!(states(&deepest()), Some(640));
}

#[test]
fn the_deepest_list_asks_all_its_tests() {
    let filters = deepest();
    let mut wishes = [None; FIELDS];
    wishes[9] = Some(60_000);
    let frame = compose(&wishes, &Layout::plain(20));
    let (table, states) = table(&filters).expect("few states");
    let answer = classify(&frame.bytes, 0, &table, states, u32::MAX);
    assert_eq!((answer.ended, answer.asked, answer.sure), (DONE, 512, Set::MAX));
}

#[test]
fn each_refusal_of_a_list() {
    let filters_before = |count, behind: &[u32]| [empty_filters(count), behind.to_vec()].concat();
    let cases: &[(&[u32], u32, u32)] = &[
        (&[0], 2, 0),
        (&[0, 0], 2, 0),
        (&[256, 0], 2, 0),
        (&[256, 0, 9], 3, 0),
        (&[0, 256, 0], 3, 0),
        (&[0, 0, 9], 4, 0),
        (&[255, 255, 1, 0, 99, 0], 2, 0),
        (&[0, 0, 2, 0, 0, 1, 1, 1, 0, 1], 2, 0),
        (&[0, 0, 1, 0, 14, 0, 0], 5, 0),
        (&[0, 0, 1, 5, 14, 0, 0], 5, 0),
        (&[0, 0, 1, 1, 14, 0, 0], 6, 0),
        (&[0, 0, 1, 2, 13, 0, 256], 7, 0),
        (&[0, 0, 1, 3, 13, 1, 256], 7, 0),
        (&[0, 0, 1, 1, 13, 256, 1], 8, 0),
        (&[0, 0, 1, 1, 13, 255, 256], 8, 0),
        (&[0, 0, 1, 4, 0, 0, 65536], 8, 0),
        (&[0, 0, 1, 1, 13, 254, 1], 9, 0),
        (&[0, 0, 1, 2, 6, 0x8000_0000, 1], 9, 0),
    ];
    for &(list, refusal, filter) in cases {
        for before in [0, 1, 31, 32, 63] {
            let list = filters_before(before, list);
            let refused = Refused { refusal, filter: filter + before as u32 };
            assert_eq!(read_list(&list), Err(refused), "{list:?}");
        }
    }
    assert_eq!(read_list(&empty_filters(65)), Err(Refused { refusal: 1, filter: 64 }));
    assert_eq!(read_list(&filters_before(64, &[9])), Err(Refused { refusal: 1, filter: 64 }));
}

#[test]
fn a_list_survives_its_words() {
    for case in 0..2000 {
        let filters = lists::list(&mut Random::case(SEED, case), style(case as usize, 2000));
        assert_eq!(read_list(&words(&filters)), Ok(filters));
    }
}

#[test]
fn residues_of_numbers_to_try() {
    for case in residue_cases() {
        let left = residue(case.test, Fact::Known(case.fact), 255);
        let should = match case.left {
            LeftOver::True => Left::True,
            LeftOver::False => Left::False,
            LeftOver::Unchanged => Left::Test(case.test),
            LeftOver::Becomes { mask, value } => Left::Test(Test { mask, value, ..case.test }),
        };
        assert_eq!(left, should, "{:?} given {:?}", case.test, case.fact);
    }
}

/// All well-formed tests on a field of so few bits.
fn all_tests(bits: u32) -> Vec<Test> {
    let full = greatest(bits);
    let mut all = Vec::new();
    for mask in 1..=full {
        for value in (0..=full).filter(|value| value & !mask == 0) {
            all.push(test(EQUAL, 0, mask, value));
            all.push(test(DIFFERS, 0, mask, value));
        }
    }
    for value in 0..=full {
        all.push(test(AT_MOST, 0, 0, value));
        all.push(test(AT_LEAST, 0, 0, value));
    }
    all
}

/// Whether what is left of a test holds of x.
fn left_of(left: Left, x: u32) -> bool {
    match left {
        Left::True => true,
        Left::False => false,
        Left::Test(test) => test.of(x),
    }
}

#[test]
fn residues_are_sound_on_narrow_fields() {
    for bits in 1..=5 {
        let (full, all) = (greatest(bits), all_tests(bits));
        for known in &all {
            for asked in &all {
                let left = residue(*asked, Fact::Known(*known), full);
                for x in (0..=full).filter(|&x| known.of(x)) {
                    assert_eq!(asked.of(x), left_of(left, x), "{asked:?} given {known:?} at {x}");
                }
                if let Left::Test(left) = left {
                    assert!(all.contains(&left), "{left:?} is not well-formed");
                    let masked =
                        known.kind == EQUAL && (asked.kind == EQUAL || asked.kind == DIFFERS);
                    assert!(masked || left == *asked, "only masks are reduced");
                }
            }
        }
    }
}

#[test]
fn an_equality_decides_all_it_can() {
    let (full, all) = (greatest(4), all_tests(4));
    for known in all.iter().filter(|known| known.kind == EQUAL) {
        for asked in &all {
            let truths: Vec<bool> =
                (0..=full).filter(|&x| known.of(x)).map(|x| asked.of(x)).collect();
            let left = residue(*asked, Fact::Known(*known), full);
            let decided = truths.iter().all(|&truth| truth == truths[0]);
            assert_eq!(decided, !matches!(left, Left::Test(_)), "{asked:?} given {known:?}");
        }
    }
}

#[test]
fn a_question_has_three_outcomes() {
    let full = greatest(4);
    for asked in all_tests(4) {
        assert_eq!(fact(asked, Outcome::Absent, full), Fact::Absent(0));
        for x in 0..=full {
            let outcome = if asked.of(x) { Outcome::Holds } else { Outcome::Fails };
            match fact(asked, outcome, full) {
                Fact::Known(known) => assert!(known.of(x), "{known:?} at {x}"),
                Fact::Absent(_) => panic!("{asked:?} fails at {x}, which is present"),
            }
        }
        // After each of its outcomes a question is settled.
        for outcome in OUTCOMES {
            let left = residue(asked, fact(asked, outcome, full), full);
            let holds = outcome == Outcome::Holds;
            assert_eq!(left, if holds { Left::True } else { Left::False }, "{asked:?} {outcome:?}");
        }
    }
    for at_end in [test(AT_MOST, 0, 0, full), test(AT_LEAST, 0, 0, 0)] {
        assert_eq!(fact(at_end, Outcome::Fails, full), Fact::Absent(0));
    }
}

#[test]
fn sums_do_not_wrap_on_the_widest_field() {
    let t = |kind, mask, value| test(kind, 6, mask, value);
    let all = u32::MAX;
    let given = |asked, known| residue(asked, Fact::Known(known), all);
    let top = t(EQUAL, 0xF000_0000, 0xF000_0000);
    assert_eq!(given(t(AT_MOST, 0, all), top), Left::True);
    assert_eq!(given(t(AT_MOST, 0, all - 1), top), Left::Test(t(AT_MOST, 0, all - 1)));
    assert_eq!(given(t(AT_LEAST, 0, all), top), Left::Test(t(AT_LEAST, 0, all)));
    assert_eq!(given(top, t(AT_LEAST, 0, all)), Left::Test(top));
    assert_eq!(given(t(EQUAL, 1, 0), t(AT_LEAST, 0, all)), Left::False);
    assert_eq!(given(t(DIFFERS, 1, 0), t(AT_LEAST, 0, all)), Left::True);
}

#[test]
fn readings_of_hand_made_frames() {
    let frame = echo_request(9);
    let mut should: Readings = [None; FIELDS];
    let echo = [
        (0, 0x0800),
        (1, 0),
        (2, 84),
        (3, 0),
        (4, 9),
        (5, 1),
        (6, 0x0A00_0001),
        (7, 0x0A00_0002),
        (11, 8),
        (12, 0),
        (13, 77),
    ];
    for (field, value) in echo {
        should[field] = Some(value);
    }
    assert_eq!(read(&frame.bytes, 77), should);
    // One byte less, and the packet no longer fits: only EtherType and box port remain.
    let mut short: Readings = [None; FIELDS];
    short[0] = Some(0x0800);
    short[13] = Some(77);
    assert_eq!(read(&frame.bytes[..frame.bytes.len() - 1], 77), short);
    assert_eq!(read(&frame.bytes[..13], 77)[0], None);
}

#[test]
fn a_frame_has_the_fields_it_was_made_with() {
    for case in 0..5000 {
        let random = &mut Random::case(SEED, case);
        let mut wishes: [Option<u32>; FIELDS] = [None; FIELDS];
        for field in [1, 4, 6, 7, 8, 9, 10, 13] {
            wishes[field] = Some(random.word() & full(field as u32));
        }
        wishes[5] = Some(TCP);
        let offset = if random.once_in(3) { random.between(1, 8191) as u32 } else { 0 };
        wishes[3] = Some((random.below(8) as u32) << 13 | offset);
        let header = random.between(5, 15) as u8;
        let transport = random.between(0, 40);
        let padding = random.below(30);
        let filler = vec![random.byte(), random.byte(), random.byte()];
        let layout = Layout { version: 4, header, transport, padding, filler };
        let frame = compose(&wishes, &layout);
        let mut should = wishes;
        should[0] = Some(0x0800);
        should[2] = Some(4 * u32::from(header) + transport as u32);
        if transport < 4 || offset != 0 {
            should[8] = None;
            should[9] = None;
        }
        if transport < 14 || offset != 0 {
            should[10] = None;
        }
        assert_eq!(read(&frame.bytes, frame.port), should);
    }
}

#[test]
fn later_fragments_have_no_transport_fields() {
    let ports = vec![Some(0x0803), Some(0x238C)];
    let message = vec![Some(8), Some(3)];
    for header in [5, 6, 15] {
        for (place, first) in [
            (0, true),
            (0x2000, true),
            (0x4000, true),
            (0x8000, true),
            (0xE000, true),
            (1, false),
            (0x1FFF, false),
            (0x2001, false),
            (0x3000, false),
            (0x4100, false),
            (0xFFFF, false),
        ] {
            for (protocol, fields, should) in
                [(TCP, 8..=9, &ports), (UDP, 8..=9, &ports), (ICMP, 11..=12, &message)]
            {
                let seen = read(&fragment(place, protocol, header).bytes, 0);
                assert_eq!(seen[3], Some(place));
                assert_eq!(seen[5], Some(protocol));
                if first {
                    assert_eq!(&seen[fields], should);
                } else {
                    assert_eq!(seen[8..=12], [None; 5]);
                }
            }
        }
    }
}

#[test]
fn hand_made_frames_lack_what_they_should() {
    let mut present = [0; FIELDS];
    let mut absent = [0; FIELDS];
    for (_, frame) in hand_made() {
        for (field, reading) in read(&frame.bytes, frame.port).iter().enumerate() {
            match reading {
                Some(_) => present[field] += 1,
                None => absent[field] += 1,
            }
        }
    }
    assert!(present.iter().all(|&count| count > 0), "{present:?}");
    assert!(absent[..13].iter().all(|&count| count > 0) && absent[13] == 0, "{absent:?}");
}

/// The scanner, the residue rules and the walk through the reference's table agree.
fn walk_agrees(filters: &[Filter], frames: &[Frame], coverage: &mut Coverage) {
    coverage.lists += 1;
    let Some((table, states)) = table(filters) else { return };
    coverage.built += 1;
    coverage.states += u64::from(states);
    for frame in frames {
        let result = demands::check(filters, frame, coverage, |allowance| {
            classify(&frame.bytes, frame.port, &table, states, allowance)
        });
        result.unwrap_or_else(|text| panic!("{text}"));
        let lamp = lamp(&words(filters), frame, &table, states);
        demands::check_lamp(filters, frame, coverage, lamp).unwrap_or_else(|text| panic!("{text}"));
    }
}

#[test]
fn scanner_residues_and_walk_agree_on_random_lists() {
    let mut coverage = Coverage::default();
    const CASES: usize = 6000;
    for case in 0..CASES {
        let random = &mut Random::case(SEED ^ 1, case as u64);
        let filters = lists::list(random, style(case, CASES));
        coverage.pairs(&filters);
        if let Some(states) = filterbox_tests::builder::states(&filters, MOST_SLOTS) {
            coverage.stored(&states);
        }
        let frames: Vec<Frame> = (0..10).map(|_| towards(random, &filters)).collect();
        walk_agrees(&filters, &frames, &mut coverage);
    }
    let (report, missing) = coverage.report();
    println!("{report}");
    assert!(coverage.built * 10 > coverage.lists * 9, "too many lists are too large");
    assert!(
        missing.iter().all(|name| name.starts_with("refusal") || name.starts_with("ended")),
        "{missing:?}"
    );
}

#[test]
fn scanner_residues_and_walk_agree_on_hand_made_frames() {
    let mut coverage = Coverage::default();
    let frames: Vec<Frame> = hand_made().into_iter().map(|(_, frame)| frame).collect();
    for field in 0..FIELDS as u32 {
        walk_agrees(&ends_of_the_range(field, full(field)), &frames, &mut coverage);
    }
    walk_agrees(&read_list(&ECHO).expect("well-formed"), &frames, &mut coverage);
    walk_agrees(&[], &frames, &mut coverage);
}

/// The builder's states and the history-free reading say the same after any outcomes, also those
/// that no frame has.
#[test]
fn states_and_residue_rules_agree_on_any_outcomes() {
    for case in 0..20_000 {
        let random = &mut Random::case(SEED ^ 2, case as u64);
        let filters = lists::list(random, style(case, 20_000));
        let mut state = start(&filters);
        let mut outcomes = Vec::new();
        while let Some(asked) = question(&state) {
            let outcome = OUTCOMES[random.below(3)];
            outcomes.push((asked, outcome, out_set(&state), sure_set(&filters, &state)));
            state = step(&filters, &state, fact(asked, outcome, full(asked.field)));
        }
        assert!(outcomes.len() <= tests(&filters));
        let mut told = outcomes.iter();
        let points = brute::path_by(&filters, &mut |asked| {
            let (question, outcome, _, _) = told.next().expect("as many questions");
            assert_eq!(asked, question);
            *outcome
        });
        assert_eq!(points.len(), outcomes.len() + 1);
        for (point, (_, _, out, sure)) in points.iter().zip(&outcomes) {
            assert_eq!((point.out, point.sure), (*out, *sure), "{:?}", words(&filters));
        }
        let end = points.last().expect("a start");
        assert_eq!((end.out, end.sure), (out_set(&state), sure_set(&filters, &state)));
    }
}

#[test]
fn texts_of_the_program() {
    let accepted: &[(&[u8], &[u32])] = &[
        (b"", &[]),
        (b" \n ", &[]),
        (b"1", &[1]),
        (b" 1  2\n\n3 ", &[1, 2, 3]),
        (b"007 0000000000000000", &[7, 0]),
        (b"4294967295", &[u32::MAX]),
        (b"00000004294967295", &[u32::MAX]),
    ];
    for (text, items) in accepted {
        assert_eq!(program::items(text).as_deref(), Some(*items));
    }
    let refused: &[&[u8]] =
        &[b"-1", b"+1", b"1\t2", b"1\r\n", b"0x10", b"4294967296", b"1,2", b"99999999999", b"1\0"];
    for text in refused {
        assert_eq!(program::items(text), None);
        assert_eq!(program::compile(text), "refused 14 0\n");
    }
    let long = vec![b' '; program::MOST_TEXT];
    assert_eq!(program::items(&long), Some(Vec::new()));
    assert_eq!(program::items(&[long, vec![b' ']].concat()), None);
    assert_eq!(program::compile(b""), "states 1\n0 0 0 0 0 0 0 0 0 0 0 0\n");
    assert_eq!(program::compile(b"0 0 9"), "refused 4 0\n");
    let echo: Vec<String> = ECHO.iter().map(u32::to_string).collect();
    let lines = program::compile(echo.join(" ").as_bytes());
    assert!(lines.starts_with("states 10\n0 1 11 255 8 1 4 8 0 0 0 0\n1 1 4 255 1 2 3 3 1 0 2 0\n"));
    assert_eq!(lines.lines().count(), 11);
}

#[test]
fn a_build_touches_only_its_words() {
    let echo_with = |table_words: usize, scratch_words: usize| {
        let mut table = vec![5; table_words];
        let mut scratch = vec![6; scratch_words];
        let built = build(&ECHO, &mut table, &mut scratch, MOST_SCRATCH_WORDS);
        (built, table, scratch)
    };
    let (built, table, scratch) = echo_with(10, 3);
    assert_eq!((built.refusal, built.number), (11, 0));
    assert!(table == vec![5; 10] && scratch == vec![6; 3]);
    let (built, table, scratch) = echo_with(12 * RECORD_WORDS, 12 * MOST_SCRATCH_WORDS - 1);
    assert_eq!((built.refusal, built.number), (10, 0));
    assert!(table.iter().all(|&word| word == 5) && scratch.iter().all(|&word| word == 6));
    let (built, table, scratch) = echo_with(12 * RECORD_WORDS + 3, 12 * MOST_SCRATCH_WORDS + 2);
    assert_eq!((built.refusal, built.number), (0, 10));
    assert!(table[110..].iter().all(|&word| word == 5));
    assert!(scratch[..12 * MOST_SCRATCH_WORDS].iter().all(|&word| word == 0));
    assert_eq!(scratch[12 * MOST_SCRATCH_WORDS..], [6, 6]);
}

/// Frames that end where a byte is still to come that decides.
fn cut_frames() -> Vec<Vec<u8>> {
    let mut cut = Vec::new();
    for (_, frame) in hand_made().into_iter().filter(|(_, frame)| frame.bytes.len() <= 200) {
        cut.extend((0..=frame.bytes.len()).map(|length| frame.bytes[..length].to_vec()));
    }
    cut.sort();
    cut.dedup();
    cut
}

/// The search for longer frames goes on as four models do. Tails that differ from a model in any one
/// byte of the headers have no field more, whatever the total length.
#[test]
fn no_byte_behind_the_end_shows_more_than_the_search() {
    for frame in cut_frames().iter().filter(|frame| frame.len() < 24) {
        let found = search(frame);
        for model in models() {
            for at in frame.len().max(12)..24 {
                let mut bytes = longer(frame, &model);
                for value in 0..=255 {
                    bytes[at] = value;
                    let mut also = found;
                    for total in [20, 24, 60, 64, ENOUGH - 14] {
                        note(&mut bytes, total, &mut also);
                    }
                    assert_eq!(also, found, "{frame:02x?}, byte {at} {value}");
                }
            }
        }
    }
}

/// Nor have tails of any bytes, of up to 200, with any total length that fits.
#[test]
fn no_random_tail_shows_more_than_the_search() {
    let random = &mut Random::new(SEED);
    let mut met = [0u64; FIELDS];
    for frame in cut_frames() {
        let found = search(&frame);
        for _ in 0..8 {
            // The two bytes of the total length are there at the least.
            let length = (TOTAL + 2).max(frame.len() + random.below(201));
            let mut bytes = frame.clone();
            bytes.resize_with(length, || random.byte());
            for (at, likely) in [(12, 8), (13, 0), (14, 0x46), (20, 0x40), (21, 0), (23, 6)] {
                if frame.len() <= at && at < length && random.below(4) > 0 {
                    bytes[at] = likely;
                }
            }
            let mut also = [false; FIELDS];
            note(&mut bytes, random.below(length), &mut also);
            for field in 0..FIELDS {
                assert!(found[field] || !also[field], "field {field} of {bytes:02x?}");
                met[field] += u64::from(also[field] && read(&frame, 0)[field].is_none());
            }
        }
    }
    // Every field that a frame can lack was there in some tail.
    assert!(met[..13].iter().all(|&count| count > 0), "{met:?}");
}
