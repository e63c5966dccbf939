//! Runs named checks one after the other and counts them in the form of cargo's own tests, for
//! targets that print something at their end or may have to skip a check.

use std::env;
use std::io::{self, Write};
use std::panic::{catch_unwind, AssertUnwindSafe};
use std::time::Instant;

/// How a check ended that did not panic.
pub enum Ended {
    Passed,
    /// Not run, and why.
    Skipped(String),
}

pub struct Runner {
    only: Vec<String>,
    stop: bool,
    passed: usize,
    failed: Vec<String>,
    skipped: usize,
    began: Instant,
}

impl Runner {
    /// Words on the command line choose the checks whose names contain one of them; with `--stop`
    /// the run ends at the first check that fails.
    pub fn new() -> Runner {
        let stop = env::args().any(|word| word == "--stop");
        let only = env::args().skip(1).filter(|word| !word.starts_with('-')).collect();
        Runner { only, stop, passed: 0, failed: Vec::new(), skipped: 0, began: Instant::now() }
    }

    /// Whether all checks run, none being chosen by name.
    pub fn runs_all(&self) -> bool {
        self.only.is_empty()
    }

    pub fn check(&mut self, name: &str, body: impl FnOnce()) {
        self.attempt(name, || {
            body();
            Ended::Passed
        });
    }

    pub fn attempt(&mut self, name: &str, body: impl FnOnce() -> Ended) {
        if !self.runs_all() && !self.only.iter().any(|word| name.contains(word.as_str())) {
            return;
        }
        // The name comes first, so that a check which ends the process is known.
        print!("test {name} ... ");
        io::stdout().flush().expect("standard output");
        let began = Instant::now();
        let result = catch_unwind(AssertUnwindSafe(body));
        let seconds = began.elapsed().as_secs_f64();
        match result {
            Ok(Ended::Passed) => {
                self.passed += 1;
                println!("ok ({seconds:.1} s)");
            }
            Ok(Ended::Skipped(why)) => {
                self.skipped += 1;
                println!("ignored, {why}");
            }
            Err(_) => {
                self.failed.push(name.to_string());
                println!("FAILED");
                if self.stop {
                    self.finish();
                }
            }
        }
    }

    /// Prints the last line and ends the process.
    pub fn finish(&self) -> ! {
        let word = if self.failed.is_empty() { "ok" } else { "FAILED" };
        for name in &self.failed {
            println!("failed: {name}");
        }
        println!(
            "\ntest result: {word}. {} passed; {} failed; {} ignored; 0 measured; 0 filtered out; \
             finished in {:.2}s\n",
            self.passed,
            self.failed.len(),
            self.skipped,
            self.began.elapsed().as_secs_f64()
        );
        std::process::exit(if self.failed.is_empty() { 0 } else { 101 });
    }
}

impl Default for Runner {
    fn default() -> Self {
        Runner::new()
    }
}
