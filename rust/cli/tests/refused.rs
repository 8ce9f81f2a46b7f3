//! What is not accepted: altered answers, unsound logs, wrong words and files that are not there.

mod common;

use common::*;
use reference::random::Random;
use reference::sample::{birth, births};

/// The run said this on standard output, in words of document 01, with status 1.
fn assert_refused(ran: &Ran, said: &str) {
    assert_eq!((ran.status, ran.text(), ran.err.as_str()), (1, format!("{said}\n").as_str(), ""));
}

/// The run wrote nothing, and what it said on standard error has these parts.
fn assert_failed(ran: &Ran, status: i32, parts: &[&str]) {
    assert_eq!((ran.status, ran.text()), (status, ""), "{ran:?}");
    for part in parts {
        assert!(ran.err.contains(part), "{part} is not in {}", ran.err);
    }
}

#[test]
fn altered_answers_are_refused_with_their_row() {
    let k = Logged::k();
    let good = k.answer(1, 2, 35);
    let changed = |place: usize, byte: u8| {
        let mut answer = good.clone();
        answer[place] = byte;
        answer
    };
    for (answer, said) in [
        (good[..0].to_vec(), "refused 15 at 0: answer ends inside or before a string, trace header or record"),
        (changed(0, b'X'), "refused 16 at 0: letter not one due"),
        (changed(64, good[64] ^ 1), "refused 17 at 0: H of a proof string not the digest due"),
        (changed(397, 0), "refused 19 at 393: trace count 0 or above 65,535"),
        (changed(441, 2), "refused 20 at 424: position not below the record's own"),
        (changed(436, 20), "refused 21 at 424: time not above the record before"),
        (changed(445, 1), "refused 22 at 398: backward: record not last, referred to by none"),
        (changed(436, 31), "refused 23 at 424: found version's record differs from L"),
        (changed(437, 8), "refused 24 at 424: its path digest differs from L"),
        ([&good[..], &[0]].concat(), "refused 18 at 446: bytes after the end"),
    ] {
        for command in ["check", "show"] {
            assert_refused(&run_on(&answer, &[command, &k.hex(), "backward", "2", "35", "-"]), said);
        }
    }
}

#[test]
fn any_altered_byte_is_refused_and_not_shown() {
    let k = Logged::k();
    let good = k.answer(2, 1, 39);
    let folder = Folder::new("altered");
    let mut random = Random::new(2);
    for place in (0..good.len()).step_by(9) {
        let mut answer = good.clone();
        answer[place] ^= 1 + random.below(255) as u8;
        let ran = run_on(&answer, &["show", &k.hex(), "forward", "1", "39", "-", "--svg", &folder.path("picture.svg")]);
        assert_eq!((ran.status, ran.err.as_str()), (1, ""), "{place}");
        assert!(ran.text().starts_with("refused ") && ran.text().lines().count() == 1, "{ran:?}");
        assert!(!std::path::Path::new(&folder.path("picture.svg")).exists());
    }
}

#[test]
fn another_question_or_commitment_is_refused() {
    let k = Logged::k();
    let answer = k.answer(1, 2, 35);
    let other = "00".repeat(32);
    assert_refused(
        &run_on(&answer, &["check", &other, "backward", "2", "35", "-"]),
        "refused 17 at 0: H of a proof string not the digest due",
    );
    assert_refused(&run_on(&answer, &["check", &k.hex(), "forward", "2", "35", "-"]), "refused 16 at 393: letter not one due");
    assert_refused(&run_on(&answer, &["check", &k.hex(), "only", "2", "35", "-"]), "refused 18 at 393: bytes after the end");
    assert_refused(&run_on(&answer, &["check", &k.hex(), "backward-after", "2", "35", "-"]), "refused 18 at 219: bytes after the end");
}

#[test]
fn unsound_logs_are_refused_with_their_row() {
    let folder = Folder::new("unsound");
    for (text, line, said) in [
        ("", "", "refused 1 at 0: log empty"),
        ("birth 1 10\nbirth 2 10", " line 2:", "refused 5 at 13: time not above the record before"),
        ("birth 2 10\n# no\n\nbirth 1 20", " line 4:", "refused 6 at 13: birth not above earlier births"),
        ("flow 1 2 7 30", " line 1:", "refused 7 at 0: flow's source unborn"),
        ("birth 1 10\nflow 1 2 7 30", " line 2:", "refused 8 at 13: destination unborn"),
        ("birth 1 10\nflow 1 1 7 50", " line 2:", "refused 9 at 13: source is destination"),
    ] {
        let log = folder.path("log");
        let told = format!("standard input:{line} the log is not sound: {said}");
        let _ = std::fs::remove_file(&log);
        assert_failed(&run_on(text.as_bytes(), &["log", "-", "-o", &log]), 1, &[&told, "--unsound"]);
        assert!(!std::path::Path::new(&log).exists());
        let made = run_on(text.as_bytes(), &["log", "-", "--unsound", "-o", &log]);
        assert_eq!((made.status, made.err), (0, format!("bozhtagul: {told}\n")));
        let told = format!("{log}: {said}");
        assert_failed(&run(&["commit", &log]), 1, &[&told]);
        assert_failed(&run(&["answer", &log, "only", "1", "10"]), 1, &[&told]);
        let listed = run(&["list", &log]);
        let row = said.split(':').next().unwrap();
        assert_eq!((listed.status, listed.text()), (1, format!("{row}\n").as_str()));
        assert_eq!(listed.err, format!("bozhtagul: {told}\n"));
    }
}

#[test]
fn bytes_that_are_no_records_have_no_text() {
    let k = Logged::k();
    assert_failed(&run_on(b"birth 1 10", &["commit", "-"]), 1, &["standard input: refused 3 at 0: command unknown", "text form"]);
    assert_failed(&run_on(&k.log, &["log", "-"]), 2, &["standard input: line 1: ", "'log --text' writes its text form"]);
    assert_failed(&run_on(&k.log[..61], &["log", "--text", "-"]), 1, &["standard input: refused 4 at 44: record cut short"]);
}

#[test]
fn a_long_log_is_not_listed() {
    let log = Logged::new(&births(513)).log;
    let ran = run_on(&log, &["list", "-"]);
    assert_eq!((ran.status, ran.text()), (1, "too long\n"));
    assert!(ran.err.contains("512 records") && ran.err.contains("--all"));
    let all = String::from_utf8(run_on(&log, &["list", "-", "--all"]).good()).unwrap();
    assert_eq!((all.lines().count(), all.lines().last()), (513, Some("512 512 birth")));
    let most = Logged::new(&births(512)).log;
    assert_eq!(run_on(&most, &["list", "-"]).good().split(|byte| *byte == b'\n').count(), 513);
}

#[test]
fn a_text_that_cannot_be_read_names_its_line() {
    let folder = Folder::new("bad_text");
    let text = folder.file("bad.txt", b"birth 1 10\n# no\nbirth two 20\n");
    assert_failed(&run(&["log", &text]), 2, &[&format!("{text}: line 3: entity 'two' is no whole number from 0 to 4294967295")]);
    assert_failed(&run(&["log", &text, "-o", &folder.path("none")]), 2, &["line 3"]);
    assert!(!std::path::Path::new(&folder.path("none")).exists());
}

#[test]
fn files_are_named_with_the_reason() {
    let folder = Folder::new("files");
    let (missing, log) = (folder.path("missing"), folder.file("k", &Logged::k().log));
    let reason = [missing.as_str(), "No such file"];
    for words in [
        &["log", &missing][..],
        &["list", &missing],
        &["commit", &missing],
        &["answer", &missing, "only", "1", "1"],
        &["check", &missing, "only", "1", "1", &log],
        &["check", &"0".repeat(64), "only", "1", "1", &missing],
        &["show", &"0".repeat(64), "only", "1", "1", &missing],
    ] {
        assert_failed(&run(words), 2, &reason);
    }
    let nowhere = folder.path("no/where");
    assert_failed(&run(&["answer", &log, "only", "1", "10", "-o", &nowhere]), 2, &[&nowhere, "No such file"]);
}

#[test]
fn a_commitment_of_another_length_is_an_error() {
    let folder = Folder::new("bad_commitment");
    for length in [0, 31, 33, 63, 64, 65] {
        let file = folder.file("c", &vec![0xee; length]);
        let ran = run(&["check", &file, "only", "1", "1", &folder.file("a", b"")]);
        assert_failed(&ran, 2, &[&file, "64 hex digits or 32 bytes", &format!("({length} bytes)")]);
    }
}

#[test]
fn wrong_words_are_errors_of_use() {
    for (words, said) in [
        (&[][..], "bozhtagul check COMMITMENT"),
        (&["prove"], "there is no command 'prove'"),
        (&["demo", "now"], "demo takes 0 words, 1 were given"),
        (&["commit"], "usage: bozhtagul commit LOG"),
        (&["commit", "--svg", "a", "b"], "commit has no option '--svg'"),
        (&["answer", "-", "sideways", "1", "1"], "DIRECTION 'sideways'"),
        (&["answer", "-", "7", "1", "1"], "DIRECTION '7'"),
        (&["answer", "-", "6", "1", "1"], "answer with 'between' takes 5 words, 4 were given"),
        (&["answer", "-", "between", "1", "1", "x"], "UNTIL 'x'"),
        (&["answer", "-", "between", "1", "2", "1"], "TIME 2 is above UNTIL 1"),
        (&["ask", "-", "backward", "1", "1", "2"], "ask takes 4 words, 5 were given (UNTIL goes with 'between' alone)"),
        (&["show", "-", "between", "1", "1", "2", "-", "--svg", "x"], "--svg draws a history: 'between' has a list"),
        (&["show", "-", "between", "1", "1", "2", "-", "--html", "x"], "--html draws a history"),
        (&["show", "-", "between", "1", "1", "2", "-", "--graph"], "--graph draws a history"),
        (&["check", "-", "between", "1", "1", "2", "-"], "standard input can be read only once"),
        (&["answer", "-", "after", "1", "1"], "DIRECTION 'after'"),
        (&["answer", "-", "only", "4294967296", "1"], "ENTITY '4294967296'"),
        (&["answer", "-", "only", "1", "x"], "TIME 'x'"),
        (&["check", "-", "only", "1", "1", "-"], "standard input can be read only once"),
    ] {
        assert_failed(&run(words), 2, &[said]);
    }
}

#[test]
fn help_is_a_success() {
    let all = String::from_utf8(run(&["--help"]).good()).unwrap();
    for name in ["demo", "log", "list", "commit", "answer", "check", "show", "mark", "mark --forge"] {
        assert!(all.contains(&format!("bozhtagul {name}")), "{name}");
        let own = String::from_utf8(run(&[name.split(' ').collect(), vec!["--help"]].concat()).good()).unwrap();
        assert!(own.starts_with(&format!("usage: bozhtagul {name}")), "{own}");
    }
}

#[test]
fn the_greatest_numbers_pass() {
    let log = Logged::new(&[birth(u32::MAX, u64::MAX)]);
    let (entity, time) = (u32::MAX.to_string(), u64::MAX.to_string());
    let answer = run_on(&log.log, &["answer", "-", "backward", &entity, &time]).good();
    let shown = run_on(&answer, &["show", &log.hex(), "backward", &entity, &time, "-"]).good();
    let expected = format!("found {entity} at {time}, 1 record\n0: {entity} at {time}, birth, found\n");
    assert_eq!(String::from_utf8(shown).unwrap(), expected);
}
