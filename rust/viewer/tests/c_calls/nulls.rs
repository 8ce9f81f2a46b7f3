//! Null with length 0, from Rust and from C: the same as an empty slice that stands somewhere.

use std::fmt::Write;
use std::ptr::{null, null_mut};

use reference::hex::to_hex;
use reference::host::Host;
use reference::sample::log_k;
use reference::Question;
use viewer::plain::{self, Checked, Outcome, Part, Written};

// as `viewer::plain` declares them, where only slices can be handed over
extern "C" {
    fn bozhtagul_hash(message: *const u8, message_len: usize, out: *mut u8, out_len: usize) -> Outcome;
    fn bozhtagul_log(log: *const u8, log_len: usize) -> Written;
    fn bozhtagul_listing(input: *const u8, input_len: usize, out: *mut u8, out_len: usize) -> Written;
    fn bozhtagul_commitment(
        log: *const u8,
        log_len: usize,
        work: *mut u8,
        work_len: usize,
        out: *mut u8,
        out_len: usize,
    ) -> Outcome;
    fn bozhtagul_answer(
        direction: u8,
        entity: u32,
        time: u64,
        until: u64,
        log: *const u8,
        log_len: usize,
        work: *mut u8,
        work_len: usize,
        out: *mut u8,
        out_len: usize,
    ) -> Written;
    fn bozhtagul_check(
        direction: u8,
        entity: u32,
        time: u64,
        until: u64,
        commitment: *const u8,
        commitment_len: usize,
        answer: *const u8,
        answer_len: usize,
        work: *mut u8,
        work_len: usize,
        out: *mut u8,
        out_len: usize,
    ) -> Checked;
    fn bozhtagul_records(
        direction: u8,
        entity: u32,
        time: u64,
        until: u64,
        commitment: *const u8,
        commitment_len: usize,
        answer: *const u8,
        answer_len: usize,
        work: *mut u8,
        work_len: usize,
    ) -> Part;
    fn bozhtagul_recorder_start(memory: *mut u8, memory_len: usize) -> Outcome;
    fn bozhtagul_recorder_take(record: *const u8, record_len: usize, memory: *mut u8, memory_len: usize) -> Outcome;
    fn bozhtagul_recorder_commitment(memory: *const u8, memory_len: usize, out: *mut u8, out_len: usize) -> Outcome;
}

#[test]
fn from_rust_without_any_input() {
    let (mut out, mut expected, mut text) = ([0; 32], [0; 32], [0; 32]);
    // sound: null goes with length 0, and no call follows it
    unsafe {
        assert_eq!(bozhtagul_hash(null(), 0, out.as_mut_ptr(), 32), plain::hash(&[], &mut expected));
        assert_eq!(bozhtagul_hash(null(), 0, null_mut(), 0), Outcome { number: 13, position: 0 });
        assert_eq!(bozhtagul_log(null(), 0), Written { number: 1, position: 0, length: 0 });
        assert_eq!(bozhtagul_listing(null(), 0, null_mut(), 0), Written { number: 13, position: 0, length: 0 });
        let listed = bozhtagul_listing(null(), 0, text.as_mut_ptr(), 32);
        assert_eq!((listed.length as usize, &text[..15]), (15, &b"refused 1 at 0\n"[..]));
        assert_eq!(bozhtagul_commitment(null(), 0, null_mut(), 0, null_mut(), 0), Outcome { number: 1, position: 0 });
        let answered = bozhtagul_answer(1, 2, 35, 0, null(), 0, null_mut(), 0, null_mut(), 0);
        assert_eq!(answered, Written { number: 1, position: 0, length: 0 });
        let checked = bozhtagul_check(1, 2, 35, 0, null(), 0, null(), 0, null_mut(), 0, null_mut(), 0);
        assert_eq!(checked, Checked { number: 14, position: 0, verdict: 0, time: 0, count: 0 });
        let checked = bozhtagul_check(1, 2, 35, 0, out.as_ptr(), 32, null(), 0, null_mut(), 0, null_mut(), 0);
        assert_eq!(checked, Checked { number: 15, position: 0, verdict: 0, time: 0, count: 0 });
        assert_eq!(bozhtagul_records(1, 2, 35, 0, out.as_ptr(), 32, null(), 0, null_mut(), 0), Part { start: 0, length: 0 });
        assert_eq!(bozhtagul_recorder_start(null_mut(), 0), Outcome { number: 26, position: 0 });
        assert_eq!(bozhtagul_recorder_take(null(), 0, null_mut(), 0), Outcome { number: 4, position: 0 });
        assert_eq!(bozhtagul_recorder_take(out.as_ptr(), 32, null_mut(), 0), Outcome { number: 26, position: 0 });
        assert_eq!(bozhtagul_recorder_commitment(null(), 0, null_mut(), 0), Outcome { number: 1, position: 0 });
    }
    assert_eq!(out, expected);
}

/// A sound log or a true answer, with null for one slice of length 0 after the other.
#[test]
fn from_rust_beside_true_inputs() {
    let host = Host::new(&log_k());
    let log = reference::log::write(&log_k());
    let commitment = host.commitment();
    let [only, backward] = [0, 1].map(|direction| host.answer(&Question::new(direction, 2, 35)));
    let [gap, all] = [(21, 29), (0, 99)].map(|(from, until)| host.answer(&Question::between(2, from, until)));
    let (mut work, mut out) = ([7; 512], [7; 32]);
    let refused = |number| Written { number, position: 0, length: 0 };
    // sound: null goes with length 0, and no call follows it; all else is lent with its own length
    unsafe {
        let (read, length) = (log.as_ptr(), log.len());
        assert_eq!(bozhtagul_commitment(read, length, null_mut(), 0, out.as_mut_ptr(), 32), Outcome { number: 12, position: 0 });
        assert_eq!(bozhtagul_commitment(read, length, work.as_mut_ptr(), 512, null_mut(), 0), Outcome { number: 13, position: 0 });
        assert_eq!(bozhtagul_answer(0, 2, 35, 0, read, length, null_mut(), 0, out.as_mut_ptr(), 32), refused(12));
        assert_eq!(bozhtagul_answer(0, 2, 35, 0, read, length, work.as_mut_ptr(), 512, null_mut(), 0), refused(13));
        let checked = bozhtagul_check(0, 2, 35, 0, commitment.as_ptr(), 32, only.as_ptr(), only.len(), null_mut(), 0, null_mut(), 0);
        assert_eq!(checked, Checked { number: 0, position: 0, verdict: 3, time: 30, count: 0 });
        let checked = bozhtagul_check(1, 2, 35, 0, commitment.as_ptr(), 32, backward.as_ptr(), backward.len(), null_mut(), 0, null_mut(), 0);
        assert_eq!(checked, Checked { number: 12, position: 0, verdict: 0, time: 0, count: 0 });
        let part = bozhtagul_records(1, 2, 35, 0, commitment.as_ptr(), 32, backward.as_ptr(), backward.len(), null_mut(), 0);
        assert_eq!(part, Part { start: 0, length: 0 });
        let checked = bozhtagul_check(6, 2, 21, 29, commitment.as_ptr(), 32, gap.as_ptr(), gap.len(), null_mut(), 0, null_mut(), 0);
        assert_eq!(checked, Checked { number: 0, position: 0, verdict: 5, time: 0, count: 0 });
        let checked = bozhtagul_check(6, 2, 0, 99, commitment.as_ptr(), 32, all.as_ptr(), all.len(), null_mut(), 0, null_mut(), 0);
        assert_eq!(checked, Checked { number: 13, position: 0, verdict: 0, time: 0, count: 0 });
    }
    assert_eq!((work, out), ([0; 512], [7; 32]));
}

/// A recorder with null for the record, and for the output.
#[test]
fn from_rust_with_a_recorder() {
    let mut memory = [7; 1_024];
    let record = reference::log::write(&log_k()[..1]);
    // sound: null goes with length 0, and no call follows it; all else is lent with its own length
    unsafe {
        assert_eq!(bozhtagul_recorder_start(memory.as_mut_ptr(), 1_024), Outcome { number: 0, position: 0 });
        assert_eq!(bozhtagul_recorder_take(null(), 0, memory.as_mut_ptr(), 1_024), Outcome { number: 4, position: 0 });
        assert_eq!(bozhtagul_recorder_commitment(memory.as_ptr(), 1_024, null_mut(), 0), Outcome { number: 1, position: 0 });
        assert_eq!(bozhtagul_recorder_take(record.as_ptr(), 13, memory.as_mut_ptr(), 1_024), Outcome { number: 0, position: 0 });
        assert_eq!(bozhtagul_recorder_commitment(memory.as_ptr(), 1_024, null_mut(), 0), Outcome { number: 13, position: 0 });
    }
}

/// What the program in C prints, by calls on empty slices.
fn expected() -> String {
    let mut text = String::new();
    let mut line = |call: &str, values: &[u64]| {
        let values: Vec<String> = values.iter().map(u64::to_string).collect();
        writeln!(text, "{call} {}", values.join(" ")).expect("a text takes more");
    };
    let outcome = |outcome: Outcome| [outcome.number, outcome.position];
    let written = |written: Written| [written.number, written.position, written.length];
    let checked = |checked: Checked| [checked.number, checked.position, checked.verdict, checked.time, checked.count];
    let mut digest = [0; 32];
    line("hash", &outcome(plain::hash(&[], &mut digest)));
    line("hash", &outcome(plain::hash(&[], &mut [])));
    line("log", &written(plain::log(&[])));
    line("listing", &written(plain::listing(&[], &mut [])));
    line("commitment", &outcome(plain::commitment(&[], &mut [], &mut [])));
    line("answer", &written(plain::answer(1, 2, 35, 0, &[], &mut [], &mut [])));
    line("check", &checked(plain::check(1, 2, 35, 0, &[], &[], &mut [], &mut [])));
    line("check", &checked(plain::check(1, 2, 35, 0, &digest, &[], &mut [], &mut [])));
    let part = plain::records(1, 2, 35, 0, &digest, &[], &mut []);
    line("records", &[part.start, part.length]);
    line("answer", &written(plain::answer(6, 2, 35, 34, &[], &mut [], &mut [])));
    line("check", &checked(plain::check(6, 2, 35, 34, &[], &[], &mut [], &mut [])));
    line("check", &checked(plain::check(6, 2, 35, 35, &digest, &[], &mut [], &mut [])));
    line("recorder_start", &outcome(plain::recorder_start(&mut [])));
    line("recorder_take", &outcome(plain::recorder_take(&[], &mut [])));
    line("recorder_take", &outcome(plain::recorder_take(&digest, &mut [])));
    line("recorder_commitment", &outcome(plain::recorder_commitment(&[], &mut [])));
    text.replacen('\n', &format!("\n{}\n", to_hex(&digest)), 1)
}

#[test]
fn from_c() {
    assert_eq!(super::run("rust/viewer/tests/c_calls/nulls.c"), expected());
}
