//! The instructions of a call, counted by valgrind's callgrind in a process of its own that makes nothing but this call.

use crate::case::Case;
use calls::Name;
use std::io::{ErrorKind, Read, Write};
use std::process::{Command, Stdio};

/// The instructions inside the exported function; none if valgrind is not there.
pub fn count(case: &Case) -> Option<u64> {
    count_of(case.call, &case.words(), &case.input)
}

/// The same, of the case that the counting process makes of words and an input.
pub fn count_of(call: Name, words: &[String], input: &[u8]) -> Option<u64> {
    let program = std::env::current_exe().expect("this program's place").with_file_name("count");
    let started = Command::new("valgrind")
        .args(["--tool=callgrind", "--callgrind-out-file=/dev/null"])
        .arg(format!("--toggle-collect=bozhtagul_{}", call.word()))
        .arg(program)
        .args(words)
        .stdin(Stdio::piped())
        .stderr(Stdio::piped())
        .spawn();
    let mut child = match started {
        Err(error) if error.kind() == ErrorKind::NotFound => return None,
        started => started.expect("valgrind starts"),
    };
    child.stdin.take().expect("its input").write_all(input).expect("the input is taken");
    let output = child.wait_with_output().expect("valgrind ends");
    let report = String::from_utf8_lossy(&output.stderr).into_owned();
    assert!(output.status.success(), "{report}");
    Some(collected(&report).unwrap_or_else(|| panic!("no count of instructions in: {report}")))
}

/// The number that callgrind reports.
fn collected(report: &str) -> Option<u64> {
    report.lines().find_map(|line| line.split_once("Collected :")?.1.trim().parse().ok())
}

/// The words and the standard input that the counting process is given.
pub fn given() -> (Vec<String>, Vec<u8>) {
    let mut input = Vec::new();
    std::io::stdin().read_to_end(&mut input).expect("an input");
    (std::env::args().skip(1).collect(), input)
}

#[cfg(test)]
mod tests {
    use super::*;

    #[test]
    fn the_count_is_found_in_the_report() {
        let report = "==7== Callgrind, a call-graph generating cache profiler\n==7== Events    : Ir\n==7== Collected : 1234567\n==7== \n";
        assert_eq!(collected(report), Some(1_234_567));
        assert_eq!(collected("==7== Events    : Ir\n==7== Collected : \n"), None);
    }
}
