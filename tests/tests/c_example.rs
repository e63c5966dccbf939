//! The C header and the C example: compiled against the library and run, by the toolchain's own
//! compiler and by gcc; and what the library needs from whoever links it.

use std::path::{Path, PathBuf};
use std::process::Command;

use filterbox_tests::runner::{Ended, Runner};
use filterbox_tests::tools::{archive, installed, made, of_the_toolchain, root, run};

const PRINTED: &str = "\
states 10
allowance 0: stopped, sure 0, out 0, asked 0, cut 0
allowance 1: stopped, sure 1, out 2, asked 1, cut 0
allowance 2: done, sure 5, out 2, asked 2, cut 0
scanned: refusal 0, set 5
lamp: refusal 0, lit 1, asked 1
judged: refusal 0, verdict 2, tallies 1 0 0, unmatched 0
24 bytes: done, sure 0, out 7, asked 2, cut 1
field 8 of 24 bytes: none
field 11 of 24 bytes: cut
";

/// Warnings count as errors: the header is read by other people's compilers.
const FLAGS: [&str; 5] = ["-std=c99", "-Wall", "-Wextra", "-pedantic", "-Werror"];

/// The names that whoever links the library has to bring, and no others.
const FROM_OUTSIDE: [&str; 2] = ["memcpy", "memset"];

fn main() {
    let mut runner = Runner::new();
    let name = "the_c_example_runs_by_the_toolchains_compiler";
    runner.attempt(name, of_the_toolchain(by_the_toolchain));
    runner.attempt("the_c_example_compiles_and_runs", with_gcc(by_gcc));
    runner.attempt("the_header_stands_alone_in_c_and_cpp", with_gcc(header_alone));
    runner.attempt("the_library_needs_two_names_from_outside", names_needed);
    runner.finish();
}

fn with_gcc(check: fn()) -> impl FnOnce() -> Ended {
    move || {
        if !installed("gcc") {
            return Ended::Skipped("gcc is not installed".to_string());
        }
        check();
        Ended::Passed
    }
}

fn source() -> PathBuf {
    root().join("examples/box.c")
}

fn prints(program: &Path) {
    let output = run(Command::new(root().join("scripts/run-program")).arg(program));
    assert_eq!(String::from_utf8_lossy(&output.stdout), PRINTED);
}

/// As on every processor, with nothing installed.
fn by_the_toolchain() {
    let program = made("box");
    run(Command::new(root().join("tests/pipe/compile")).arg(source()).arg(&program).args(FLAGS));
    prints(&program);
}

/// As a customer compiles it. A gcc of another processor reads example and header as well, but what
/// it makes cannot have the library in it.
fn by_gcc() {
    let mut gcc = Command::new("gcc");
    gcc.args(FLAGS).arg("-I").arg(root().join("include")).arg(source());
    let machine = run(Command::new("gcc").arg("-dumpmachine"));
    if !machine.stdout.starts_with(b"x86_64") {
        run(gcc.arg("-fsyntax-only"));
        return;
    }
    let program = made("box_by_gcc");
    run(gcc.arg(archive()).arg("-o").arg(&program));
    prints(&program);
}

/// The tool nm of some machines reads no file of another processor's.
fn names_needed() -> Ended {
    match Command::new("nm").arg("-u").arg(archive()).output() {
        Ok(output) if output.status.success() => {
            of_the_toolchain(|| only_those(&String::from_utf8_lossy(&output.stdout)))()
        }
        _ => Ended::Skipped("nm is not installed, or does not read the library".to_string()),
    }
}

/// A letter before each name: w where it is only used if somebody brings it.
fn only_those(needed: &str) {
    for line in needed.lines() {
        let words: Vec<&str> = line.split_whitespace().collect();
        if let ["U" | "w" | "v", name] = words[..] {
            assert!(FROM_OUTSIDE.contains(&name), "{name} is needed from outside");
        }
    }
}

fn header_alone() {
    for language in ["c", "c++"] {
        let flags = if language == "c" { &FLAGS[..] } else { &FLAGS[1..] };
        // gcc may be installed without its C++ compiler.
        if language == "c++" && !installed("g++") {
            continue;
        }
        run(Command::new("gcc")
            .args(flags)
            .args(["-fsyntax-only", "-x", language])
            .arg(root().join("include/filterbox.h")));
    }
}
