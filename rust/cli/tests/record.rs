//! A running recorder over a store: its answers, and its store after kills, with a full disk, and with another process.

mod common;

use std::fs;
use std::io::{BufRead, BufReader, Read, Write};
use std::process::{Child, ChildStdout, Command, Stdio};
use std::thread;
use std::time::Duration;

use common::*;
use reference::hex::to_hex;
use reference::host::Host;
use reference::log::{write, Record};
use reference::random::{records_of_length, Random};
use reference::sample::{births, log_k};

/// The line of a record.
fn line(record: &Record) -> String {
    match *record {
        Record::Birth { entity, time } => format!("birth {entity} {time}\n"),
        Record::Flow { source, destination, kind, time } => format!("flow {source} {destination} {kind} {time}\n"),
    }
}

fn lines(records: &[Record]) -> String {
    records.iter().map(line).collect()
}

fn commitment(records: &[Record]) -> String {
    to_hex(&Host::new(records).commitment())
}

/// The answer to a record that is the last of these.
fn taken(records: &[Record]) -> String {
    format!("taken {} {}\n", records.len(), commitment(records))
}

/// The answers to all records from a place on.
fn all_taken(records: &[Record], from: usize) -> String {
    (from..records.len()).map(|place| taken(&records[..=place])).collect()
}

#[test]
fn each_record_is_answered_with_the_commitment() {
    let folder = Folder::new("record_answers");
    let store = folder.path("store");
    let ran = run_on(lines(&log_k()).as_bytes(), &["record", &store]);
    assert_eq!(String::from_utf8(ran.good()).unwrap(), all_taken(&log_k(), 0));
    assert_eq!(folder.read("store/log"), write(&log_k()));
    let logged = run(&["commit", &folder.path("store/log")]);
    assert_eq!(logged.text().trim(), commitment(&log_k()));
    // no record, and then more of them: the recorder goes on
    assert_eq!(run(&["record", &store]).good(), b"");
    let more = [&log_k()[..], &births(60)[50..]].concat();
    let ran = run_on(lines(&births(60)[50..]).as_bytes(), &["record", &store]);
    assert_eq!(String::from_utf8(ran.good()).unwrap(), all_taken(&more, 4));
    assert_eq!(folder.read("store/log"), write(&more));
    assert!(fs::metadata(folder.path("store/memory")).is_ok() && fs::metadata(folder.path("store/memory.new")).is_err());
}

#[test]
fn lines_are_refused_in_their_turn() {
    let folder = Folder::new("record_refused");
    let store = folder.path("store");
    let text = "# a yard\n\nbirth 1 10\nbirth 1 10\ndeath 1 11\nflow 1 2 7 12\nbirth 2 20 # the second\nflow 1 2 7 30\nflow 2 2 7 31\nbirth 3\n";
    let ran = run_on(text.as_bytes(), &["record", &store]);
    let expected = [
        taken(&log_k()[..1]),
        "refused 5 at 0: time not above the record before\n".into(),
        "unread: 'death' is neither birth nor flow\n".into(),
        "refused 8 at 0: destination unborn\n".into(),
        taken(&log_k()[..2]),
        taken(&log_k()[..3]),
        "refused 9 at 0: source is destination\n".into(),
        "unread: the time is missing\n".into(),
    ];
    assert_eq!((ran.text(), ran.status), (expected.concat().as_str(), 1));
    assert_eq!(ran.err, format!("bozhtagul: {store}: a line was refused or could not be read\n"));
    assert_eq!(folder.read("store/log"), write(&log_k()[..3]));
    let ran = run_on(b"flow 2 1 8 40\nflow 2 1 8 40\n", &["record", &store, "--json"]);
    let refused = "{\"accepted\":false,\"number\":5,\"position\":0,\"cause\":\"time not above the record before\"}\n";
    let accepted = format!("{{\"accepted\":true,\"records\":4,\"commitment\":\"{}\"}}\n", commitment(&log_k()));
    assert_eq!((ran.text(), ran.status), ((accepted + refused).as_str(), 1));
}

#[test]
fn a_last_line_without_an_end_is_not_taken() {
    let folder = Folder::new("record_unended");
    let store = folder.path("store");
    let ran = run_on(b"birth 1 10\nbirth 2 2", &["record", &store]);
    assert_eq!((ran.text(), ran.status), (taken(&log_k()[..1]).as_str(), 2));
    assert!(ran.err.contains("the last line has no line feed"));
    assert_eq!(folder.read("store/log"), write(&log_k()[..1]));
}

#[test]
fn what_is_amiss_is_said() {
    let folder = Folder::new("record_amiss");
    let unsound = [write(&log_k()), vec![9]].concat();
    fs::create_dir(folder.path("unsound")).expect("a folder");
    folder.file("unsound/log", &unsound);
    let ran = run_on(b"birth 3 50\n", &["record", &folder.path("unsound")]);
    assert_eq!((ran.status, ran.text()), (2, ""));
    assert!(ran.err.contains("/log: refused 3 at 62: command unknown; nothing was changed"), "{}", ran.err);
    assert_eq!(folder.read("unsound/log"), unsound);
    assert!(fs::metadata(folder.path("unsound/memory")).is_err());
    // a record cut short was never answered
    fs::create_dir(folder.path("cut")).expect("a folder");
    folder.file("cut/log", &write(&log_k())[..61]);
    let ran = run_on(b"flow 2 1 8 40\n", &["record", &folder.path("cut")]);
    assert_eq!((ran.status, ran.text()), (0, taken(&log_k()).as_str()));
    assert!(ran.err.contains("/log: a record that was cut short at 44 was taken off: it was never answered"), "{}", ran.err);
    // a copy of another log
    fs::copy(folder.path("cut/memory"), folder.path("unsound/memory")).expect("copied");
    folder.file("unsound/log", &write(&births(3)));
    let ran = run_on(lines(&births(4)[3..]).as_bytes(), &["record", &folder.path("unsound")]);
    assert_eq!((ran.status, ran.text()), (0, taken(&births(4)).as_str()));
    assert!(ran.err.contains("/memory: not a copy for this log; 3 records were offered again"), "{}", ran.err);
    // a folder of other files
    folder.file("letter", b"dear");
    let ran = run_on(b"birth 1 10\n", &["record", &folder.path("")]);
    assert_eq!((ran.status, ran.text()), (2, ""));
    assert!(ran.err.contains("neither empty nor a store") && fs::metadata(folder.path("log")).is_err(), "{}", ran.err);
    // no folder
    let ran = run(&["record", &folder.file("file", b"")]);
    assert_eq!(ran.status, 2);
    assert_eq!(run(&["record", &folder.path("no/such")]).status, 2);
}

/// A recorder that runs: its answers are read as they come.
struct Running {
    child: Child,
    answers: BufReader<ChildStdout>,
}

impl Running {
    fn start(store: &str) -> Running {
        Running::of(Command::new(env!("CARGO_BIN_EXE_bozhtagul")).args(["record", store]))
    }

    fn of(program: &mut Command) -> Running {
        let program = program.stdin(Stdio::piped()).stdout(Stdio::piped()).stderr(Stdio::piped());
        let mut child = program.spawn().expect("started");
        let answers = BufReader::new(child.stdout.take().expect("piped"));
        Running { child, answers }
    }

    /// Sends a line; its answer, empty if the process has ended.
    fn send(&mut self, text: &str) -> String {
        let _ = self.child.stdin.as_mut().expect("piped").write_all(text.as_bytes());
        let mut answer = String::new();
        self.answers.read_line(&mut answer).expect("an answer");
        answer
    }
}

#[test]
fn answers_come_while_the_input_is_open() {
    let folder = Folder::new("record_open");
    let mut running = Running::start(&folder.path("store"));
    for (place, record) in log_k().iter().enumerate() {
        assert_eq!(running.send(&line(record)), taken(&log_k()[..=place]));
        assert_eq!(folder.read("store/log"), write(&log_k()[..=place]));
    }
    drop(running.child.stdin.take());
    assert!(running.child.wait().expect("ended").success());
}

/// Nobody reads the answers: the records are kept all the same.
#[test]
fn a_closed_output_is_no_failure() {
    let folder = Folder::new("record_closed");
    let mut running = Running::start(&folder.path("store"));
    drop(running.answers);
    let mut input = running.child.stdin.take().expect("piped");
    for record in births(20) {
        input.write_all(line(&record).as_bytes()).expect("taken");
        thread::sleep(Duration::from_millis(1));
    }
    drop(input);
    assert!(running.child.wait().expect("ended").success());
    assert_eq!(folder.read("store/log"), write(&births(20)));
}

#[test]
fn two_processes_do_not_share_a_store() {
    let folder = Folder::new("record_two");
    let store = folder.path("store");
    let mut first = Running::start(&store);
    assert_eq!(first.send("birth 1 10\n"), taken(&log_k()[..1]));
    let second = run_on(b"birth 2 20\n", &["record", &store]);
    assert_eq!((second.status, second.text()), (2, ""));
    assert_eq!(second.err, format!("bozhtagul: {store}: in use by another process\n"));
    assert_eq!(first.send("birth 2 20\n"), taken(&log_k()[..2]));
    first.child.kill().expect("killed");
    first.child.wait().expect("ended");
    // the lock goes with the process
    let third = run_on(b"flow 1 2 7 30\n", &["record", &store]);
    assert_eq!((third.status, third.text()), (0, taken(&log_k()[..3]).as_str()));
}

/// Starts a recorder, sends it lines, and kills it after a while; its answers.
fn killed_after(store: &str, text: String, pause: Duration) -> String {
    let mut running = Running::start(store);
    let mut input = running.child.stdin.take().expect("piped");
    // the pipe breaks when the process is killed
    let feeder = thread::spawn(move || {
        for line in text.split_inclusive('\n') {
            if input.write_all(line.as_bytes()).is_err() {
                return;
            }
            thread::sleep(Duration::from_micros(200));
        }
    });
    let mut answers = running.answers;
    let reader = thread::spawn(move || {
        let mut all = String::new();
        answers.read_to_string(&mut all).expect("text");
        all
    });
    thread::sleep(pause);
    running.child.kill().expect("killed");
    running.child.wait().expect("ended");
    feeder.join().expect("ended");
    reader.join().expect("ended")
}

/// How many of the records a log has whole, of which it must be the beginning.
fn whole_records(records: &[Record], log: &[u8]) -> usize {
    assert!(write(records).starts_with(log));
    (0..=records.len()).rev().find(|count| write(&records[..*count]).len() <= log.len()).expect("none at least")
}

/// Killed again and again: every record that was answered is in the log, the log is the beginning of what was sent, and the next start goes on.
#[test]
fn kills_in_a_loop() {
    let folder = Folder::new("record_kills");
    let store = folder.path("store");
    let mut random = Random::new(5);
    let records = records_of_length(&mut random, 900);
    let (mut kept, mut killed_at_work, mut idle) = (0, 0, 0);
    for round in 0..40 {
        // what was not answered is sent once more, and perhaps what was
        let from = kept - random.index(kept.min(3) + 1);
        let pause = Duration::from_micros(1_000 + random.below(12_000) + 4_000 * idle);
        let answers = killed_after(&store, lines(&records[from..]), pause);
        let in_log = whole_records(&records, &fs::read(folder.path("store/log")).unwrap_or_default());
        let mut answered = kept;
        for answer in answers.split_inclusive('\n').filter(|line| line.ends_with('\n')) {
            match answer.strip_prefix("taken ") {
                None => assert_eq!(answer, "refused 5 at 0: time not above the record before\n"),
                Some(rest) => {
                    answered += 1;
                    assert!(rest.starts_with(&format!("{answered} ")), "round {round}: {answer}");
                }
            }
            if answered > kept && random.once_in(20) {
                assert_eq!(answer, taken(&records[..answered]));
            }
        }
        assert!(answered <= in_log, "round {round}: {answered} answered, {in_log} in the log");
        killed_at_work += usize::from(in_log > kept && in_log < records.len());
        // a slow machine gets more time
        idle += u64::from(in_log == kept);
        kept = in_log;
        if kept == records.len() {
            break;
        }
    }
    assert!(killed_at_work >= 5, "{killed_at_work}");
    let ran = run_on(lines(&records[kept..]).as_bytes(), &["record", &store]);
    assert_eq!((ran.status, ran.text()), (0, all_taken(&records, kept).as_str()));
    assert_eq!(folder.read("store/log"), write(&records));
}

/// The recorder under a limit for the size of its files, in parts of 512 bytes, with the signal of the limit ignored or not. Each line is sent after the
/// answer to the one before; gives the answers, what was said, and the status.
fn limited(store: &str, parts: usize, ignored: bool, text: &str) -> (String, String, Option<i32>) {
    let trap = if ignored { "trap '' XFSZ; " } else { "" };
    let script = format!("ulimit -f {parts}; {trap}exec '{}' record '{store}'", env!("CARGO_BIN_EXE_bozhtagul"));
    let mut running = Running::of(Command::new("sh").args(["-c", &script]));
    let mut answers = String::new();
    for line in text.split_inclusive('\n') {
        let answer = running.send(line);
        if answer.is_empty() {
            break;
        }
        answers += &answer;
    }
    drop(running.child.stdin.take());
    let output = running.child.wait_with_output().expect("ended");
    (answers, String::from_utf8(output.stderr).expect("text"), output.status.code())
}

/// No room for a record: it is not answered and not in the log, and the next run goes on; nor is it if the process ends in the middle of writing it.
#[test]
fn a_full_disk() {
    let folder = Folder::new("record_full");
    let records = births(60);
    // 39 births have 507 bytes
    for (name, ignored, length) in [("said", true, 507), ("ended", false, 512)] {
        let store = folder.path(name);
        let (answers, said, status) = limited(&store, 1, ignored, &lines(&records));
        assert_eq!((answers, status), (all_taken(&records[..39], 0), ignored.then_some(2)), "{said}");
        assert_eq!(said.contains("/log: ") && said.contains("what was not answered is not recorded"), ignored, "{said}");
        assert_eq!(folder.read(&format!("{name}/log")), write(&records)[..length]);
        let ran = run_on(lines(&records[39..]).as_bytes(), &["record", &store]);
        assert_eq!((ran.status, ran.text()), (0, all_taken(&records, 39).as_str()), "{}", ran.err);
    }
}

/// No room for a copy of the memory: it is said, and all else goes on.
#[test]
fn no_room_for_a_copy() {
    let folder = Folder::new("record_no_copy");
    let store = folder.path("store");
    let (answers, said, status) = limited(&store, 2, true, &lines(&births(3)));
    assert_eq!((answers, status), (all_taken(&births(3), 0), Some(0)));
    assert!(said.contains("/memory: ") && said.ends_with("there is no new copy\n"), "{said}");
    let ran = run_on(lines(&births(5)[3..]).as_bytes(), &["record", &store]);
    assert_eq!((ran.status, ran.text(), ran.err.as_str()), (0, all_taken(&births(5), 3).as_str(), ""));
}
