//! Memory that is not lent cannot be touched: a library that does so dies by a signal, and the case is named.

use std::os::unix::process::ExitStatusExt;
use std::process::{Command, Output};

const FORBIDDEN_ADDRESS: i32 = 11;

/// Runs cases in a child, with a library that also touches this.
fn run_child(wanted: &str) -> Output {
    Command::new(env!("CARGO_BIN_EXE_touch")).arg(wanted).output().expect("a child")
}

#[test]
fn touching_what_is_not_lent_is_a_fault() {
    let beside_the_output = ["write after the output", "write before the output"];
    for wanted in ["read after", "read before", "write after", "write before", "write input"].into_iter().chain(beside_the_output) {
        let output = run_child(wanted);
        let said = String::from_utf8_lossy(&output.stderr);
        assert_eq!(output.status.signal(), Some(FORBIDDEN_ADDRESS), "{wanted}: {said}");
        assert!(said.contains("signal 11 in case ") && said.contains("fuzz/run --seed 1 --case "), "{wanted}: {said}");
    }
}

#[test]
fn a_library_that_touches_nothing_else_lives() {
    let output = run_child("nothing");
    assert!(output.status.success() && output.stderr.is_empty(), "{output:?}");
}
