//! The program `replay`: what it prints for many lists and captures. It is crates/replay/out/replay,
//! or what FILTERBOX_REPLAY says, which this machine runs itself; where it is not built,
//! the checks are skipped.

use std::env;
use std::ffi::OsStr;
use std::fs;
use std::io::Write;
use std::path::{Path, PathBuf};
use std::process::{Child, Command, Output, Stdio};
use std::thread::sleep;
use std::time::Duration;

use filterbox_tests::cases::{CAPTURE_CUTS, RANDOM_CAPTURES};
use filterbox_tests::examples::{echo_in_one_group, ECHO};
use filterbox_tests::frames::towards;
use filterbox_tests::lists::{self, style};
use filterbox_tests::pcap::{self, Form, Record, ETHERNET, FORMS};
use filterbox_tests::random::Random;
use filterbox_tests::replay::{records, replay, Captured};
use filterbox_tests::rules::{words, Filter};
use filterbox_tests::runner::{Ended, Runner};
use filterbox_tests::tools::{made, root, run, with_libpcap, Program};

/// The captures, with how many echo requests are in each.
const CAPTURES: [(&str, u64); 5] =
    [("neighbours", 2), ("icmp", 14), ("tcp", 0), ("udp", 0), ("fragments", 3)];
const FILE_HEADER: usize = 24;
const RECORD_HEADER: usize = 16;
/// The bytes that the program may hold of a capture.
const BUFFER: usize = 65_536;
/// A filter without tests, and one for the EtherType 0x0808.
const ALL_AND_EIGHTS: &str = "0 0 0 0 0 1 1 0 65535 2056";
/// The memory that the program may take at most, in units of 1,024 bytes.
const MOST_MEMORY: u64 = 4_096;

fn main() {
    let mut runner = Runner::new();
    CAPTURE_CUTS.tell();
    RANDOM_CAPTURES.tell();
    let checks: [(&str, Check); 13] = [
        ("replay_counts_the_captures_in_each_form", data_captures),
        ("replay_sees_each_cut", cuts),
        ("replay_knows_the_lengths", lengths),
        ("replay_refuses_other_files", other_files),
        ("replay_refuses_the_list_first", list_first),
        ("replay_reads_across_its_buffer", across_the_buffer),
        ("replay_reads_a_pipe_in_pieces", pieces),
        ("replay_says_why_it_cannot_read", unreadable),
        ("replay_counts_random_captures", random_captures),
        ("replay_counts_repeated_records", repeated),
        ("replay_needs_little_memory", memory),
        ("replay_and_libpcap_agree", against_libpcap),
        ("replay_capture_puts_words_beside_the_numbers", script),
    ];
    for (name, check) in checks {
        runner.attempt(name, || match Program::find("replay", "FILTERBOX_REPLAY") {
            Some(program) => check(&Replay(program)),
            None => Ended::Skipped("the program replay is not built".to_string()),
        });
    }
    runner.finish();
}

type Check = fn(&Replay) -> Ended;

/// The program under test.
struct Replay(Program);

impl Replay {
    fn run(&self, names: &[&OsStr]) -> Output {
        let mut command = self.0.command();
        command.args(names).stdin(Stdio::null());
        run(&mut command)
    }

    /// Begins to replay what comes over a pipe.
    fn listen(&self, text: &[u8]) -> Child {
        let mut command = self.0.command();
        command.arg(file("piped.list", text)).arg("/dev/stdin");
        command.stdin(Stdio::piped()).stdout(Stdio::piped());
        command.spawn().unwrap_or_else(|error| panic!("{command:?}: {error}"))
    }

    /// What the program prints for a list and a capture.
    fn print(&self, text: &[u8], capture: &[u8]) -> String {
        let (list, capture) = (file("one.list", text), file("one.pcap", capture));
        let output = self.run(&[list.as_os_str(), capture.as_os_str()]);
        assert_eq!(String::from_utf8_lossy(&output.stderr), "", "standard error");
        String::from_utf8(output.stdout).expect("text")
    }

    /// Compares with the reference.
    fn check(&self, text: &[u8], capture: &[u8]) -> String {
        let (printed, should) = (self.print(text, capture), replay(text, capture));
        if printed != should {
            fs::write(made("failed.pcap"), capture).expect("a file");
            panic!(
                "list {:?}, capture of {} bytes, kept as {:?}\nprinted\n{printed}\nshould be\n{should}",
                String::from_utf8_lossy(text),
                capture.len(),
                made("failed.pcap"),
            );
        }
        printed
    }

    /// Compares with the reference and with what is known.
    fn prints(&self, text: &[u8], capture: &[u8], known: &str) {
        assert_eq!(replay(text, capture), known, "the reference");
        self.check(text, capture);
    }
}

/// A file with these bytes.
fn file(name: &str, bytes: &[u8]) -> PathBuf {
    let path = made(name);
    fs::write(&path, bytes).unwrap_or_else(|error| panic!("{path:?}: {error}"));
    path
}

fn data(name: &str) -> PathBuf {
    root().join("tests/data").join(name).with_extension("pcap")
}

fn bytes_of(name: &str) -> Vec<u8> {
    fs::read(data(name)).unwrap_or_else(|error| panic!("{name}: {error}"))
}

/// A capture's records; all are whole.
fn records_of(name: &str) -> Vec<Record> {
    let frames = pcap::frames(&bytes_of(name)).unwrap_or_else(|error| panic!("{name}: {error}"));
    frames.into_iter().map(Record::whole).collect()
}

fn spaced(list: &[u32]) -> Vec<u8> {
    list.iter().map(u32::to_string).collect::<Vec<_>>().join(" ").into_bytes()
}

/// What is printed for these numbers.
fn lines(numbers: &[u64]) -> String {
    numbers.iter().map(|number| format!("{number}\n")).collect()
}

fn data_captures(program: &Replay) -> Ended {
    let mut texts = vec![spaced(&ECHO), spaced(&echo_in_one_group([3, 2, 1])), Vec::new()];
    for case in 0..8 {
        let random = &mut Random::case(0x9CA9, case as u64);
        texts.push(spaced(&words(&lists::list(random, style(case, 8)))));
    }
    for (name, requests) in CAPTURES {
        let records = records_of(name);
        let first = program.check(&texts[0], &bytes_of(name));
        assert_eq!(first.lines().next(), Some(requests.to_string().as_str()), "{name}");
        for text in &texts {
            let printed = program.check(text, &bytes_of(name));
            for form in FORMS {
                assert_eq!(program.check(text, &form.file(&records)), printed, "{name}, {form:?}");
            }
        }
    }
    Ended::Passed
}

/// Each byte of the file header and of the first two records, up to 200 bytes of their frames; of longer
/// frames every eighth byte behind these, and the last.
fn cuts(program: &Replay) -> Ended {
    let mut all = Vec::new();
    for (i, (name, _)) in CAPTURES.into_iter().enumerate() {
        let records = &records_of(name)[..2];
        let file = FORMS[i % FORMS.len()].file(records);
        let mut known = Vec::from([(0..FILE_HEADER, Some("refused 17 0\n"))]);
        let mut at = FILE_HEADER;
        for (record, refused) in records.iter().zip(["refused 18 1\n", "refused 18 2\n"]) {
            let end = at + RECORD_HEADER + record.bytes.len();
            known.extend([(at..at + 1, None), (at + 1..end, Some(refused))]);
            at = end;
        }
        known.push((at..at + 1, None));
        for (cuts, known) in known {
            let last = cuts.end - 1;
            let near = |&cut: &usize| cut < cuts.start + 216 || cut % 8 == 0 || cut == last;
            all.extend(cuts.clone().filter(near).map(|cut| (file[..cut].to_vec(), known)));
        }
    }
    for (cut, known) in all.iter().step_by(all.len().div_ceil(CAPTURE_CUTS.count())) {
        let printed = program.check(&spaced(&ECHO), cut);
        match known {
            Some(known) => assert_eq!(&printed, known, "{} bytes", cut.len()),
            None => assert!(!printed.starts_with("refused"), "{} bytes: {printed}", cut.len()),
        }
    }
    Ended::Passed
}

/// Frames of many lengths: whole, captured short, and with more captured than there was.
fn lengths(program: &Replay) -> Ended {
    let text = ALL_AND_EIGHTS.as_bytes();
    let ordinary = Record::whole(vec![8; 60]);
    for length in [0, 1, 13, 14, 60, 1_521, 1_522, 1_523, 1_524, 65_535, 65_536, 70_000] {
        let more = [1, 70_000, u32::MAX - 70_000].map(|n| length as u32 + n);
        let fewer = [1, 2, 60].map(|n| (length as u32).saturating_sub(n));
        for original in [length as u32].into_iter().chain(more).chain(fewer) {
            let record = Record { bytes: vec![8; length], original };
            let short = u64::from(length < original as usize);
            let long = u64::from(short == 0 && length > 1_522);
            let matched = 1 - short - long;
            let eights = if length < 14 { 0 } else { matched };
            let known = [matched, eights, matched, 0, short, long];
            for form in FORMS {
                let alone = form.file(&[record.clone()]);
                program.prints(text, &alone, &lines(&known));
                if length == 0 || original != length as u32 && form != FORMS[length % 4] {
                    continue;
                }
                let cut = &alone[..alone.len() - 1];
                program.prints(text, cut, "refused 18 1\n");
                let between = form.file(&[ordinary.clone(), record.clone(), ordinary.clone()]);
                let known = [matched + 2, eights + 2, matched + 2, 0, short, long];
                program.prints(text, &between, &lines(&known));
            }
        }
    }
    Ended::Passed
}

/// Files that begin otherwise, other link types; the version, the time zone and the rest of the header
/// are not looked at.
fn other_files(program: &Replay) -> Ended {
    let text = ALL_AND_EIGHTS.as_bytes();
    let record = Record::whole(vec![8; 60]);
    for form in FORMS {
        for link in [0, 2, 3, 101, 105, 127, 256, 0x1_0000, 0x1_0001, 0x0100_0000, 0x0100_0001, !0]
        {
            let file = [form.header(link), form.record(&record)].concat();
            program.prints(text, &file, "refused 17 0\n");
        }
        let file = form.file(&[record.clone()]);
        for at in 0..4 {
            for bit in [1, 0x80] {
                let mut other = file.clone();
                other[at] ^= bit;
                program.prints(text, &other, "refused 17 0\n");
            }
        }
        for at in 4..20 {
            let mut other = file.clone();
            other[at] ^= 0xFF;
            program.prints(text, &other, "1\n1\n1\n0\n0\n0\n");
        }
        // Header and records in two orders: the record's length is read in the header's.
        let turned = Form { big: !form.big, ..form };
        let file = [form.header(ETHERNET), turned.record(&record)].concat();
        program.prints(text, &file, "refused 18 1\n");
    }
    let magics: [[u8; 4]; 5] = [
        [0x0A, 0x0D, 0x0D, 0x0A],
        [0xA1, 0xB2, 0xCD, 0x34],
        [0x34, 0xCD, 0xB2, 0xA1],
        [0xB2, 0xA1, 0xD4, 0xC3],
        [0, 0, 0, 0],
    ];
    for magic in magics {
        let mut file = FORMS[0].file(&[record.clone()]);
        file[..4].copy_from_slice(&magic);
        program.prints(text, &file, "refused 17 0\n");
    }
    program.prints(text, b"", "refused 17 0\n");
    Ended::Passed
}

/// 14 before the list's faults, and these before the capture's.
fn list_first(program: &Replay) -> Ended {
    let whole = FORMS[0].file(&[Record::whole(vec![8; 60])]);
    let captures = [&whole[..], &whole[..30], &whole[..10], b""];
    for capture in captures {
        program.prints(b"0 0 9 x", capture, "refused 14 0\n");
        program.prints(&[b' '; 16_385], capture, "refused 14 0\n");
        program.prints(b"0 0 0 0 256 0", capture, "refused 3 1\n");
        program.prints(b"0 0 0 0 0 0 0 0 9", capture, "refused 4 2\n");
        program.prints(b"0 0 1 1 0 65535", capture, "refused 2 0\n");
    }
    program.prints(b"", &whole, "0\n1\n0\n0\n");
    program.prints(&[b' '; 16_384], &whole, "0\n1\n0\n0\n");
    program.prints(b"", &whole[..30], "refused 18 1\n");
    Ended::Passed
}

/// A record that begins so many bytes before the end of the program's buffer, behind one that is not
/// matched; and records that are longer than the buffer.
fn across_the_buffer(program: &Replay) -> Ended {
    let text = ALL_AND_EIGHTS.as_bytes();
    let frames = [60, 1_522, 0, 14].map(|length| Record::whole(vec![8; length]));
    for before in (0..40).chain((40..1_520).step_by(97)).chain(1_520..1_545) {
        let length = BUFFER - before - FILE_HEADER - RECORD_HEADER;
        let form = FORMS[before % FORMS.len()];
        for original in [length as u32, !0] {
            let first = Record { bytes: vec![8; length], original };
            let all: Vec<Record> = [&[first][..], &frames].concat();
            program.check(text, &form.file(&all));
        }
    }
    for buffers in 1..4 {
        for more in [0, 1, 15, 16, 17, 40, 1_600] {
            let length = buffers * BUFFER + more - FILE_HEADER - RECORD_HEADER;
            for original in [length as u32, !0] {
                let first = Record { bytes: vec![8; length], original };
                let all: Vec<Record> = [&[first][..], &frames].concat();
                let file = FORMS[more % FORMS.len()].file(&all);
                program.check(text, &file);
                program.check(text, &file[..FILE_HEADER + RECORD_HEADER + length - 1]);
            }
        }
    }
    Ended::Passed
}

/// The program reads what there is, however little.
fn pieces(program: &Replay) -> Ended {
    let capture = bytes_of("icmp");
    let known = replay(&spaced(&ECHO), &capture);
    for size in [1, 7, 23, 1_000] {
        let mut child = program.listen(&spaced(&ECHO));
        let mut input = child.stdin.take().expect("a pipe");
        let (first, rest) = capture.split_at(size * 4);
        for piece in first.chunks(size) {
            input.write_all(piece).expect("the program reads");
            sleep(Duration::from_millis(10));
        }
        input.write_all(rest).expect("the program reads");
        drop(input);
        let output = child.wait_with_output().expect("the program ends");
        assert_eq!(String::from_utf8_lossy(&output.stdout), known, "pieces of {size} bytes");
    }
    Ended::Passed
}

/// Too few names or too many, files that are not there, folders: one line on standard error.
fn unreadable(program: &Replay) -> Ended {
    let (list, capture) = (file("good.list", &spaced(&ECHO)), data("icmp"));
    let (nowhere, folder) = (Path::new("no such file"), root());
    let cases: [&[&Path]; 8] = [
        &[],
        &[&list],
        &[&list, &capture, &capture],
        &[nowhere, &capture],
        &[&list, nowhere],
        &[nowhere, nowhere],
        &[&folder, &capture],
        &[&list, &folder],
    ];
    for names in cases {
        let words: Vec<&OsStr> = names.iter().map(|name| name.as_os_str()).collect();
        let output = program.run(&words);
        assert_eq!(String::from_utf8_lossy(&output.stdout), "", "{names:?}");
        let said = String::from_utf8_lossy(&output.stderr).into_owned();
        assert!(said.ends_with('\n') && said.lines().count() == 1, "{names:?}: {said:?}");
    }
    // A list that is refused is refused before its capture is opened.
    let bad = file("bad.list", b"1 x");
    let output = program.run(&[bad.as_os_str(), nowhere.as_os_str()]);
    assert_eq!(String::from_utf8_lossy(&output.stdout), "refused 14 0\n");
    assert_eq!(String::from_utf8_lossy(&output.stderr), "");
    Ended::Passed
}

/// A record towards a list: mostly a whole frame.
fn record(random: &mut Random, filters: &[Filter]) -> Record {
    let mut bytes = towards(random, filters).bytes;
    match random.below(20) {
        0 => bytes.resize(random.between(1_500, 1_540), random.byte()),
        1 => bytes.resize(random.pick(&[1_521, 1_522, 1_523, 5_000, 66_000]), random.byte()),
        2 => bytes.truncate(random.below(bytes.len() + 1)),
        _ => {}
    }
    let length = bytes.len() as u32;
    let original = match random.below(12) {
        0 => length + random.between(1, 3) as u32,
        1 => random.word(),
        2 => length.saturating_sub(random.between(1, 3) as u32),
        _ => length,
    };
    Record { bytes, original }
}

fn random_captures(program: &Replay) -> Ended {
    let count = RANDOM_CAPTURES.count();
    for case in 0..count {
        let random = &mut Random::case(0x9CAF, case as u64);
        let style = style(case, count);
        let filters = lists::list(random, style);
        let text = match random.below(10) {
            0 => spaced(&lists::faulty(random, style)),
            _ => spaced(&words(&filters)),
        };
        let records = random.between(0, if case % 20 == 0 { 400 } else { 40 });
        let records: Vec<Record> = (0..records).map(|_| record(random, &filters)).collect();
        let mut file = random.pick(&FORMS).file(&records);
        match random.below(6) {
            0 => file.truncate(random.below(file.len() + 1)),
            1 => file.extend((0..random.between(1, 40)).map(|_| random.byte())),
            _ => {}
        }
        program.check(&text, &file);
    }
    Ended::Passed
}

/// All captures' records so many times over.
fn repeated_capture(times: usize) -> Vec<u8> {
    let records: Vec<Record> = CAPTURES.iter().flat_map(|(name, _)| records_of(name)).collect();
    let once = FORMS[1].file(&records);
    let mut file = once[..FILE_HEADER].to_vec();
    for _ in 0..times {
        file.extend(&once[FILE_HEADER..]);
    }
    file
}

/// Every number is so many times what it is once.
fn repeated(program: &Replay) -> Ended {
    let text = spaced(&ECHO);
    let once = program.check(&text, &repeated_capture(1));
    let many = program.check(&text, &repeated_capture(200));
    let numbers = |printed: &str| -> Vec<u64> {
        printed.lines().map(|line| line.parse().expect("a number")).collect()
    };
    let times: Vec<u64> = numbers(&once).into_iter().map(|number| 200 * number).collect();
    assert_eq!(numbers(&many), times);
    assert_eq!(times[3..].iter().sum::<u64>(), 200 * (31 + 32 + 36 + 10 + 25));
    Ended::Passed
}

/// What the program has taken at most when all of a capture has come over a pipe.
fn memory(program: &Replay) -> Ended {
    if !program.0.direct() {
        return Ended::Skipped("the memory would be the emulator's".to_string());
    }
    let capture = repeated_capture(400);
    assert!(capture.len() as u64 > 5 * 1_024 * MOST_MEMORY, "{} bytes", capture.len());
    let mut child = program.listen(&spaced(&ECHO));
    let mut input = child.stdin.take().expect("a pipe");
    input.write_all(&capture).expect("the program reads");
    let status = fs::read_to_string(format!("/proc/{}/status", child.id()));
    drop(input);
    let output = child.wait_with_output().expect("the program ends");
    assert_eq!(String::from_utf8_lossy(&output.stdout), replay(&spaced(&ECHO), &capture));
    let Ok(status) = status else {
        return Ended::Skipped("the system does not tell a process's memory".to_string());
    };
    let peak = status.lines().find_map(|line| line.strip_prefix("VmHWM:"));
    let peak = peak.and_then(|rest| rest.trim().strip_suffix(" kB")).expect("a number of kB");
    let peak: u64 = peak.parse().expect("a number");
    assert!(peak < MOST_MEMORY, "{peak} kB for a capture of {} bytes", capture.len());
    Ended::Passed
}

/// What libpcap says of a record.
struct Theirs {
    captured: usize,
    original: u32,
    taken: bool,
}

/// The records that libpcap reads, and its last line.
fn read_by_libpcap(helper: &Path, capture: &Path, expression: &str) -> (Vec<Theirs>, String) {
    let output = run(Command::new(helper).arg(capture).arg(expression));
    let said = String::from_utf8_lossy(&output.stdout).into_owned();
    let mut said: Vec<&str> = said.lines().collect();
    let last = said.pop().expect("a last line").to_string();
    let theirs = said.into_iter().map(|line| {
        let numbers: Vec<u32> =
            line.split(' ').map(|word| word.parse().expect("a number")).collect();
        Theirs { captured: numbers[0] as usize, original: numbers[1], taken: numbers[2] == 1 }
    });
    (theirs.collect(), last)
}

/// Lists of one filter, and the same for libpcap.
const RULES: [(&str, &str); 4] = [
    ("0 0 0", "len >= 0"),
    ("0 0 1 1 11 255 8", "icmp[0] = 8"),
    ("0 0 1 1 0 65535 2054", "arp"),
    ("0 0 1 1 9 65535 8080", "tcp[2:2] = 8080 or udp[2:2] = 8080"),
];

/// The numbers that the program prints are those of libpcap's own reader and filter.
fn against_libpcap(program: &Replay) -> Ended {
    let helper = match with_libpcap("records") {
        Ok(helper) => helper,
        Err(why) => return Ended::Skipped(why),
    };
    for (i, (name, _)) in CAPTURES.into_iter().enumerate() {
        let mut records = records_of(name);
        // The last frame captured short, and too long.
        let last = records.pop().expect("a record");
        records.push(Record { original: 9_000, ..last.clone() });
        records.push(Record::whole([&last.bytes[..], &[0; 1_523]].concat()));
        for form in [FORMS[i % 4], FORMS[(i + 1) % 4]] {
            let file = file("theirs.pcap", &form.file(&records));
            for (text, expression) in RULES {
                let (theirs, last) = read_by_libpcap(&helper, &file, expression);
                assert_eq!((theirs.len(), last.as_str()), (records.len(), "end"), "{name}");
                let [mut with, mut without, mut short, mut long] = [0; 4];
                for record in theirs {
                    match record {
                        Theirs { captured, original, .. } if captured < original as usize => {
                            short += 1
                        }
                        Theirs { captured, .. } if captured > 1_522 => long += 1,
                        Theirs { taken: true, .. } => with += 1,
                        Theirs { .. } => without += 1,
                    }
                }
                let capture = fs::read(&file).expect("the file");
                program.prints(
                    text.as_bytes(),
                    &capture,
                    &lines(&[with, with, without, short, long]),
                );
            }
        }
    }
    cut_for_libpcap(&helper);
    Ended::Passed
}

/// The reference reads the records that libpcap reads, up to the end of the file or where that cuts one.
fn cut_for_libpcap(helper: &Path) {
    for case in 0..80 {
        let random = &mut Random::case(0x9CAB, case);
        let records_made: Vec<Record> = (0..6).map(|_| record(random, &[])).collect();
        let whole = random.pick(&FORMS).file(&records_made);
        let cut = if random.once_in(3) { whole.len() } else { random.below(whole.len() + 1) };
        let (theirs, last) = read_by_libpcap(helper, &file("cut.pcap", &whole[..cut]), "");
        let same = |ours: &[Captured]| {
            let pairs = ours.iter().zip(&theirs);
            ours.len() == theirs.len()
                && pairs
                    .into_iter()
                    .all(|(a, b)| (a.bytes.len(), a.original) == (b.captured, b.original))
        };
        match records(&whole[..cut]) {
            Ok(ours) => assert!(last == "end" && same(&ours), "{cut} bytes: {last}"),
            Err(refusal) if refusal.0 == 17 => assert_eq!(last, "none", "{cut} bytes"),
            Err(refusal) => {
                assert_eq!(
                    (last.as_str(), refusal.1),
                    ("cut", theirs.len() as u64 + 1),
                    "{cut} bytes"
                )
            }
        }
    }
}

/// `./replay-capture` prints what the program prints, or the same with words, as the page shows it.
fn script(program: &Replay) -> Ended {
    if env::var_os("FILTERBOX_REPLAY").is_some() {
        return Ended::Skipped("FILTERBOX_REPLAY names another program".to_string());
    }
    let list = root().join("examples/echo.list");
    let text = fs::read(&list).expect("a shipped list");
    let script = |words: &[&OsStr]| {
        let mut command = Command::new(root().join("replay-capture"));
        command.args(words).stdin(Stdio::null()).output().expect("the script runs")
    };
    let said = |output: Output| String::from_utf8(output.stdout).expect("text");
    let (list, capture, names) = (list.as_os_str(), data("icmp"), OsStr::new("--names"));
    assert_eq!(said(script(&[list, capture.as_os_str()])), program.check(&text, &bytes_of("icmp")));
    let named = said(script(&[names, list, capture.as_os_str()]));
    let numbers = named.lines().map(|line| {
        let number = line.rsplit(": ").next().and_then(|words| words.split(' ').next());
        format!("{}\n", number.expect("a number"))
    });
    assert_eq!(numbers.collect::<String>(), replay(&text, &bytes_of("icmp")));
    let page = fs::read_to_string(root().join("docs/TECHNICIANS.md")).expect("the page");
    assert!(page.contains(&format!("```\n{named}```\n")), "not on the page:\n{named}");
    let cut = file("named.pcap", &bytes_of("icmp")[..1_000]);
    let refused = said(script(&[names, list, cut.as_os_str()]));
    assert_eq!(refused, "refused 18 9: record 9 is cut by the end of the file\n");
    for words in
        [&[list, OsStr::new("no such file")][..], &[names, list, OsStr::new("no such file")]]
    {
        let output = script(words);
        assert_eq!((output.status.code(), output.stdout.len()), (Some(1), 0), "{words:?}");
        assert_eq!(String::from_utf8_lossy(&output.stderr).lines().count(), 1, "{words:?}");
    }
    assert_eq!(script(&[list]).status.code(), Some(2));
    Ended::Passed
}
