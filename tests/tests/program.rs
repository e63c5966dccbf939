//! The program `compile`: what it prints for many texts. It is crates/compile/out/compile,
//! or what FILTERBOX_COMPILE says, which this machine runs itself; where it is not built, the checks
//! are skipped.

use std::fs;
use std::io::Write;
use std::process::Stdio;
use std::thread::sleep;
use std::time::Duration;

use filterbox_tests::cases::RANDOM_TEXTS;
use filterbox_tests::examples::{behind_impossible, empty_filters, one_bit_tests, ECHO};
use filterbox_tests::lists::{self, style};
use filterbox_tests::program::{compile, MOST_TEXT};
use filterbox_tests::random::Random;
use filterbox_tests::rules::words;
use filterbox_tests::runner::{Ended, Runner};
use filterbox_tests::tools::{root, Program};

const EXAMPLE: &str = "\
states 10
0 1 11 255 8 1 4 8 0 0 0 0
1 1 4 255 1 2 3 3 1 0 2 0
2 0 0 0 0 0 0 0 5 0 2 0
3 0 0 0 0 0 0 0 1 0 6 0
4 1 11 255 0 5 8 8 0 0 1 0
5 1 4 255 1 6 7 7 0 0 1 0
6 0 0 0 0 0 0 0 6 0 1 0
7 0 0 0 0 0 0 0 0 0 7 0
8 1 4 255 1 9 7 7 0 0 3 0
9 0 0 0 0 0 0 0 4 0 3 0
";
const ONE_STATE: &str = "states 1\n0 0 0 0 0 0 0 0 0 0 0 0\n";

/// Items that are no decimal numbers up to 4,294,967,295. Two of them would be small numbers if the
/// greatest ones were left to wrap.
const NO_ITEMS: [&str; 26] = [
    "4294967296",
    "4294967297",
    "4294967302",
    "10000000000",
    "18446744073709551616",
    "18446744073709551623",
    "99999999999999999999999999999999999999999",
    "-1",
    "+1",
    "-0",
    "+",
    "-",
    "1.0",
    "1,",
    "0x7",
    "1e1",
    "7\t",
    "\t7",
    "7\r",
    "7\r\n",
    "7\x0b",
    "7\x0c",
    "7\0",
    "7\u{a0}",
    "\u{667}",
    "seven",
];

fn main() {
    let mut runner = Runner::new();
    RANDOM_TEXTS.tell();
    let checks: [(&str, Check); 10] = [
        ("program_prints_the_example", example),
        ("program_prints_the_shipped_lists_as_the_page_says", shipped_lists),
        ("program_gives_each_refusal", refusals),
        ("program_lends_16_slots", slots),
        ("program_reads_empty_and_blank_texts", blank_texts),
        ("program_reads_16384_bytes_and_no_more", long_texts),
        ("program_knows_its_items", items),
        ("program_tries_each_byte", each_byte),
        ("program_reads_a_text_that_comes_in_pieces", pieces),
        ("program_prints_random_lists", random_lists),
    ];
    for (name, check) in checks {
        runner.attempt(name, || match Program::find("compile", "FILTERBOX_COMPILE") {
            Some(program) => {
                check(&Compile(program));
                Ended::Passed
            }
            None => Ended::Skipped("the program compile is not built".to_string()),
        });
    }
    runner.finish();
}

type Check = fn(&Compile);

/// The program, and what is compared.
struct Compile(Program);

impl Compile {
    /// What the program prints for a text that comes in these pieces.
    fn print(&self, pieces: &[&[u8]]) -> String {
        let mut command = self.0.command();
        let mut child = command
            .stdin(Stdio::piped())
            .stdout(Stdio::piped())
            .spawn()
            .unwrap_or_else(|error| panic!("{command:?}: {error}"));
        let mut input = child.stdin.take().expect("a pipe");
        for (i, piece) in pieces.iter().enumerate() {
            if i > 0 {
                sleep(Duration::from_millis(20));
            }
            // The program need not read a text that is too long to its end.
            let _ = input.write_all(piece);
        }
        drop(input);
        let output = child.wait_with_output().expect("the program ends");
        assert!(output.status.success(), "{}", output.status);
        String::from_utf8(output.stdout).expect("text")
    }

    /// Compares with the reference.
    fn check(&self, text: &[u8]) {
        let (printed, should) = (self.print(&[text]), compile(text));
        assert!(printed == should, "{}\nprinted\n{printed}\nshould be\n{should}", show(text));
    }

    /// Compares with the reference and with what is known.
    fn prints(&self, text: &[u8], known: &str) {
        assert_eq!(compile(text), known, "the reference for {}", show(text));
        self.check(text);
    }
}

fn show(text: &[u8]) -> String {
    let shown = String::from_utf8_lossy(&text[..text.len().min(400)]).into_owned();
    format!("text of {} bytes: {shown:?}", text.len())
}

fn spaced(list: &[u32]) -> String {
    list.iter().map(u32::to_string).collect::<Vec<_>>().join(" ")
}

fn example(program: &Compile) {
    let text = "1 0 1 1 11 255 8 2 0 2 1 11 255 0 1 4 255 1 3 0 1 1 4 255 1";
    program.prints(text.as_bytes(), EXAMPLE);
    program.prints(format!("{text}\n").as_bytes(), EXAMPLE);
    program.prints(format!("\n  {}  \n\n", text.replace(' ', " \n ")).as_bytes(), EXAMPLE);
}

/// The tables on the technicians' page are those of the lists that are shipped.
fn shipped_lists(program: &Compile) {
    let page = fs::read_to_string(root().join("docs/TECHNICIANS.md")).expect("the page");
    for name in ["echo", "masked"] {
        let list = fs::read(root().join(format!("examples/{name}.list"))).expect("a shipped list");
        let table = program.print(&[&list]);
        assert!(table.starts_with("states "), "{name}: {table}");
        assert!(page.contains(&format!("```\n{table}```\n")), "{name}: not on the page:\n{table}");
        program.check(&list);
    }
}

fn refusals(program: &Compile) {
    let full = spaced(&empty_filters(64));
    let cases = [
        (format!("{full} 0"), "refused 1 64\n"),
        (format!("{full} 0 0 0"), "refused 1 64\n"),
        ("0 0".to_string(), "refused 2 0\n"),
        ("0 0 0 0 0 1 1 13 255".to_string(), "refused 2 1\n"),
        ("0 256 0".to_string(), "refused 3 0\n"),
        ("0 0 0 4294967295 0 0".to_string(), "refused 3 1\n"),
        ("0 0 9".to_string(), "refused 4 0\n"),
        ("0 0 1 5 13 255 1".to_string(), "refused 5 0\n"),
        ("0 0 1 1 14 255 1".to_string(), "refused 6 0\n"),
        ("0 0 1 3 13 255 1".to_string(), "refused 7 0\n"),
        ("0 0 1 1 13 256 0".to_string(), "refused 8 0\n"),
        ("0 0 0 1 0 0 2 0 1 1 13 254 1".to_string(), "refused 9 2\n"),
        (spaced(&words(&one_bit_tests(4))), "refused 11 0\n"),
        ("one".to_string(), "refused 14 0\n"),
        // 14 comes before all else.
        ("0 0 9 x".to_string(), "refused 14 0\n"),
        (format!("{full} 0 4294967296"), "refused 14 0\n"),
    ];
    for (text, known) in cases {
        program.prints(text.as_bytes(), known);
    }
}

fn slots(program: &Compile) {
    for (impossible, known) in [(0, "states 15"), (1, "states 16"), (2, "refused 11 0")] {
        let text = spaced(&words(&behind_impossible(impossible, one_bit_tests(3))));
        assert_eq!(compile(text.as_bytes()).lines().next(), Some(known));
        program.check(text.as_bytes());
    }
}

fn blank_texts(program: &Compile) {
    for text in ["", " ", "\n", " \n \n\n  "] {
        program.prints(text.as_bytes(), ONE_STATE);
    }
}

fn long_texts(program: &Compile) {
    let padded = |bytes: usize| {
        let mut text = spaced(&ECHO).into_bytes();
        text.resize(bytes, b' ');
        text
    };
    program.prints(&padded(MOST_TEXT), EXAMPLE);
    program.prints(&padded(MOST_TEXT + 1), "refused 14 0\n");
    program.prints(&vec![b'\n'; MOST_TEXT - 1], ONE_STATE);
    program.prints(&vec![b'\n'; MOST_TEXT], ONE_STATE);
    program.prints(&vec![b'\n'; MOST_TEXT + 1], "refused 14 0\n");
    program.prints(&vec![b' '; 3 * MOST_TEXT], "refused 14 0\n");
    // As many items as a text can hold, and one item of zeros only.
    program.prints(&b"0 ".repeat(MOST_TEXT / 2), "refused 1 64\n");
    program.prints(&vec![b'0'; MOST_TEXT], "refused 2 0\n");
    program.prints(&vec![b'9'; MOST_TEXT], "refused 14 0\n");
    program.prints(&[&[b'0'; MOST_TEXT - 2][..], b" x"].concat(), "refused 14 0\n");
    program.check(&[&[b' '; MOST_TEXT - 1][..], b"7"].concat());
}

fn items(program: &Compile) {
    // Each as the value of a box port, of which 255 is the greatest.
    let one_filter = |item: &str| format!("0 0 1 1 13 255 {item}");
    for (item, same_as) in [("7", "7"), ("007", "7"), ("00000000000000000000255", "255")] {
        let known = compile(one_filter(same_as).as_bytes());
        assert!(known.starts_with("states 3\n"));
        program.prints(one_filter(item).as_bytes(), &known);
    }
    for item in ["256", "4294967295", "000004294967295"] {
        program.prints(one_filter(item).as_bytes(), "refused 8 0\n");
    }
    for item in NO_ITEMS {
        program.prints(one_filter(item).as_bytes(), "refused 14 0\n");
        program.prints(item.as_bytes(), "refused 14 0\n");
    }
}

/// Every byte between two items and inside one.
fn each_byte(program: &Compile) {
    for byte in 0..=255 {
        for place in [b' ', b'8'] {
            let mut text = spaced(&ECHO).into_bytes();
            let at = text.iter().position(|&old| old == place).expect("there is one");
            text[at] = byte;
            program.check(&text);
        }
    }
}

fn pieces(program: &Compile) {
    let text = spaced(&ECHO);
    for cut in [1, 2, 11, 20, text.len() - 1] {
        let (first, second) = text.as_bytes().split_at(cut);
        let (second, third) = second.split_at(second.len() / 2);
        assert_eq!(program.print(&[first, second, third]), EXAMPLE);
    }
}

fn random_lists(program: &Compile) {
    let texts = RANDOM_TEXTS.count();
    for case in 0..texts {
        let random = &mut Random::case(0xC0_4711E, case as u64);
        let style = style(case, texts);
        let list = if random.once_in(2) {
            lists::faulty(random, style)
        } else {
            words(&lists::list(random, style))
        };
        let mut text = String::new();
        for word in &list {
            let zeros = if random.once_in(8) { random.below(12) } else { 0 };
            text.push_str(&"0".repeat(zeros));
            text.push_str(&word.to_string());
            for _ in 0..random.pick(&[1, 1, 1, 2, 3]) {
                text.push(random.pick(&[' ', ' ', '\n']));
            }
        }
        program.check(text.as_bytes());
    }
}
