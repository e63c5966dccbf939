//! Other programs that the tests run, where they are installed.

use std::env;
use std::path::{Path, PathBuf};
use std::process::{Command, Output};

use crate::runner::Ended;

/// The repository's root.
pub fn root() -> PathBuf {
    Path::new(env!("CARGO_MANIFEST_DIR")).join("..")
}

/// The static library under test, as build.rs finds it.
pub fn archive() -> PathBuf {
    let folder = match env::var_os("FILTERBOX_LIB_DIR") {
        Some(folder) => PathBuf::from(folder),
        None => root().join("target/staticlib"),
    };
    folder.join("libfilterbox.a")
}

/// Where the tests put a file that they make.
pub fn made(name: &str) -> PathBuf {
    let program = env::current_exe().expect("the running test has a path");
    program.parent().expect("it lies in a folder").join(name)
}

/// A check of the library that the toolchain made; a stand-in is only linked, and then there is none.
pub fn of_the_toolchain(check: impl FnOnce()) -> impl FnOnce() -> Ended {
    move || {
        if env::var_os("FILTERBOX_LIB_DIR").is_some() {
            return Ended::Skipped("FILTERBOX_LIB_DIR names a library that is only linked".into());
        }
        check();
        Ended::Passed
    }
}

/// Whether a program answers at all.
pub fn installed(program: &str) -> bool {
    Command::new(program).arg("--version").output().is_ok()
}

/// Runs a command that must succeed.
pub fn run(command: &mut Command) -> Output {
    let output = command.output().unwrap_or_else(|error| panic!("{command:?}: {error}"));
    assert!(
        output.status.success(),
        "{command:?}: {}\n{}{}",
        output.status,
        String::from_utf8_lossy(&output.stdout),
        String::from_utf8_lossy(&output.stderr)
    );
    output
}

/// A program of the box as it is run here: what a variable names, which this machine runs itself, or
/// what the toolchain made in its crate's out/, under an emulator where this processor needs one.
pub struct Program(PathBuf, Vec<PathBuf>);

impl Program {
    /// None where it is not built.
    pub fn find(name: &str, variable: &str) -> Option<Program> {
        if let Some(path) = env::var_os(variable).map(PathBuf::from) {
            return path.is_file().then_some(Program(path, Vec::new()));
        }
        let built = root().join("crates").join(name).join("out").join(name);
        if !built.is_file() {
            return None;
        }
        let emulator = run(&mut Command::new(root().join("scripts/emulator"))).stdout;
        if emulator.is_empty() {
            return Some(Program(built, Vec::new()));
        }
        Some(Program(root().join("scripts/run-program"), vec![built]))
    }

    /// Whether this machine runs it itself.
    pub fn direct(&self) -> bool {
        self.1.is_empty()
    }

    pub fn command(&self) -> Command {
        let mut command = Command::new(&self.0);
        command.args(&self.1);
        command
    }
}

/// A C program of tests/data that is linked with libpcap, or why it can't be made here.
pub fn with_libpcap(name: &str) -> Result<PathBuf, String> {
    if !installed("gcc") {
        return Err("gcc is not installed".to_string());
    }
    let program = made(name);
    let compiled = Command::new("gcc")
        .arg("-Wall")
        .arg(root().join("tests/data").join(name).with_extension("c"))
        .arg("-lpcap")
        .arg("-o")
        .arg(&program)
        .output()
        .map_err(|error| error.to_string())?;
    if compiled.status.success() {
        return Ok(program);
    }
    let said = String::from_utf8_lossy(&compiled.stderr).into_owned();
    if said.contains("pcap.h") || said.contains("-lpcap") {
        return Err("libpcap's header or library is not installed".to_string());
    }
    panic!("{said}");
}
