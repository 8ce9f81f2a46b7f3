//! Inputs without end, outputs that are closed or full.

mod common;

use std::fs::File;
use std::process::{Command, Stdio};
use std::time::{Duration, Instant};

use common::*;

fn program(words: &[&str]) -> Command {
    let mut program = Command::new(env!("CARGO_BIN_EXE_bozhtagul"));
    program.args(words).stdin(Stdio::null()).stdout(Stdio::piped()).stderr(Stdio::piped());
    program
}

#[test]
fn an_input_without_end_is_not_read_to_its_end() {
    let began = Instant::now();
    for (words, said) in [
        (&["commit", "/dev/zero"][..], "refused 3 at 0"),
        (&["ask", "/dev/zero", "backward", "2", "35"], "refused 3 at 0"),
        (&["check", "/dev/zero", "backward", "2", "35", "/dev/null"], "/dev/zero"),
        (&["check", &Logged::k().hex(), "backward", "2", "35", "/dev/zero"], "refused 16 at 0"),
    ] {
        let output = program(words).output().expect("started");
        let text = String::from_utf8_lossy(&output.stdout) + String::from_utf8_lossy(&output.stderr);
        assert!(!output.status.success() && text.contains(said), "{words:?}: {text}");
    }
    assert!(began.elapsed() < Duration::from_secs(20));
}

/// A log of records is read whole up to the longest, and so far that row 2 is met behind it.
#[test]
fn the_longest_log_is_read_whole() {
    let folder = Folder::new("longest");
    let records = |count: u64| {
        let flow = |time: u64| reference::log::Record::Flow { source: 1, destination: 2, kind: 7, time };
        let births = [(1, 1), (2, 2)].map(|(entity, time)| reference::log::Record::Birth { entity, time });
        reference::log::write(&births.into_iter().chain((3..=count).map(flow)).collect::<Vec<_>>())
    };
    let commit = |count| run(&["commit", &folder.file("log", &records(count))]);
    assert_eq!(commit(65_535).status, 0);
    let refused = commit(65_540);
    let place = 2 * 13 + 65_533 * 18;
    assert!(refused.err.contains(&format!("refused 2 at {place}")), "{}", refused.err);
}

#[test]
fn a_closed_pipe_ends_it_silently() {
    let folder = Folder::new("closed");
    let log = folder.file("log", &Logged::k().log);
    for words in [&["list", &log][..], &["--help"], &["ask", &log, "backward", "2", "35"]] {
        let mut child = program(words).spawn().expect("started");
        drop(child.stdout.take());
        let output = child.wait_with_output().expect("ended");
        assert_eq!((output.status.code(), String::from_utf8_lossy(&output.stderr).as_ref()), (Some(0), ""), "{words:?}");
    }
}

#[test]
fn an_output_that_cannot_be_written_is_said() {
    let full = File::options().write(true).open("/dev/full").expect("/dev/full");
    let output = program(&["--help"]).stdout(full).output().expect("started");
    assert_eq!(output.status.code(), Some(2));
    assert!(String::from_utf8_lossy(&output.stderr).starts_with("bozhtagul: standard output: "));
}
