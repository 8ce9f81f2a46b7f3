//! Participants' programs, good and bad, and what is said of them.

mod common;

use std::fs;
use std::path::Path;
use std::process::Command;

use common::*;

/// Marks a shell script.
fn mark(name: &str, script: &str, words: &[&str]) -> (Folder, Ran) {
    let folder = Folder::new(&format!("mark_{name}"));
    let ran = run(&[&["mark", &folder.host("host", script)], words].concat());
    (folder, ran)
}

/// The program of `examples/participant.rs`. `cargo test -p cli` builds it beside the command line; with `--test mark` cargo does not,
/// and then one that is missing or older than its source must not pass.
fn participant() -> String {
    let path = Path::new(env!("CARGO_BIN_EXE_bozhtagul")).with_file_name("examples").join("participant");
    let source = Path::new(env!("CARGO_MANIFEST_DIR")).join("examples").join("participant.rs");
    let written = |path: &Path| fs::metadata(path).and_then(|data| data.modified()).ok();
    assert!(written(&path) >= written(&source), "{} is not built from its source", path.display());
    path.to_str().expect("UTF-8").to_string()
}

/// The seed that the heading has.
fn seed(ran: &Ran) -> &str {
    ran.text().lines().next().and_then(|line| line.strip_prefix("seed ")).expect("a seed")
}

/// The table's lines as words, without the seconds.
fn table(ran: &Ran) -> Vec<Vec<String>> {
    let words = |line: &str| line.split_whitespace().map(str::to_string).collect::<Vec<_>>();
    let mut lines: Vec<Vec<String>> = ran.text().lines().skip(2).take(9).map(words).collect();
    lines.iter_mut().for_each(|line| drop(line.remove(4)));
    lines
}

/// The last line of the table.
fn all(ran: &Ran) -> String {
    table(ran).last().expect("a table").join(" ")
}

/// Only the first question is treated in this way; the rest are answered.
fn first(what: &str) -> String {
    format!("[ -e asked ] || {{ : >asked; {what}; }}\nanswer \"$@\"")
}

#[test]
fn true_answers_are_all_accepted() {
    let (_, ran) = mark("good", "answer \"$@\"", &[]);
    assert_eq!((ran.status, ran.err.as_str()), (0, ""));
    let sizes: Vec<String> = table(&ran).iter().map(|line| line[0].clone()).collect();
    assert_eq!(sizes, ["1", "2", "4", "16", "64", "256", "1024", "4096", "all"]);
    assert!(table(&ran)[..8].iter().all(|line| line[1..] == ["28", "28", "0", "none"]));
    assert_eq!(all(&ran), "all 224 224 0 none");
}

#[test]
fn a_program_written_from_the_handout_alone_has_full_marks() {
    for seed in ["1", "2", "3"] {
        let ran = run(&["mark", &participant(), "--seed", seed]);
        assert_eq!((all(&ran).as_str(), ran.err.as_str(), ran.status), ("all 224 224 0 none", "", 0), "seed {seed}: {}", ran.text());
    }
}

#[test]
fn its_answers_on_log_k_are_the_proved_ones() {
    let log = Logged::k().log;
    let entities = ["0", "1", "2", "3", "4294967295"];
    let times = ["0", "10", "11", "19", "20", "21", "30", "31", "35", "39", "40", "41", "99", "18446744073709551615"];
    let directions = ["0", "1", "2", "3", "4", "5"];
    let of_entity = |entity| times.into_iter().flat_map(move |time| directions.map(|direction| [direction, entity, time]));
    for question in entities.into_iter().flat_map(of_entity) {
        let proved = run_on(&log, &[&["answer", "-"], &question[..]].concat()).good();
        assert_eq!(run_with(Command::new(participant()).args(question), &log).good(), proved, "{question:?}");
    }
    for entity in ["1", "2", "3"] {
        for (place, from) in times.into_iter().enumerate() {
            for until in times[place..].iter().step_by(3) {
                let question = ["6", entity, from, until];
                let proved = run_on(&log, &[&["answer", "-"], &question[..]].concat()).good();
                assert_eq!(run_with(Command::new(participant()).args(question), &log).good(), proved, "{question:?}");
            }
        }
    }
}

#[test]
fn false_answers_are_counted_by_row() {
    let script = "case $1 in 0 | 3) answer \"$@\" ;; 1 | 4) answer \"$@\"; printf x ;; *) printf x ;; esac";
    let (_, ran) = mark("bad", script, &[]);
    assert_eq!((ran.status, all(&ran).as_str()), (1, "all 224 64 0 96 by row 16, 64 by row 18"));
    let said: Vec<&str> = ran.text().lines().skip(11).collect();
    let [refused, difference] = said[..] else { panic!("{said:?}") };
    assert!(refused.starts_with("first not accepted: ") && refused.contains(", backward, log of size 1: refused 18 at "), "{refused}");
    assert!(refused.ends_with(": bytes after the end"), "{refused}");
    assert!(difference.starts_with("first difference from the true answer: it goes on at byte "), "{difference}");
}

/// What is kept is enough to ask and to check again.
#[test]
fn the_first_answer_that_is_not_accepted_is_kept() {
    let (folder, ran) = mark("keep", "answer \"$@\"; printf x", &["--keep", &Folder::new("mark_kept").path("a/b")]);
    let kept = |name: &str| folder.path(&format!("../mark_kept/a/b/{name}"));
    let said = fs::read_to_string(kept("said")).unwrap();
    assert!(said.starts_with("first not accepted: ") && ran.text().ends_with(&said), "{said}");
    let question = fs::read_to_string(kept("question")).unwrap();
    let question: Vec<&str> = question.split_whitespace().collect();
    let commitment = run(&["commit", &kept("log")]).good();
    let commitment = std::str::from_utf8(&commitment).unwrap().trim();
    let checked = run(&[&["check", commitment], &question[..], &[&kept("answer")]].concat());
    assert!(checked.status == 1 && said.contains(checked.text().trim()), "{said}");
    let truth = run(&[&["answer", &kept("log")], &question[..]].concat()).good();
    assert_eq!(fs::read(kept("answer")).unwrap(), [&truth[..], b"x"].concat());
}

/// A host that takes at or after for at or before has full marks in directions 0 to 2; of the others, those of a version at its own time and of
/// no entity are right.
#[test]
fn a_host_that_does_not_look_ahead_loses_marks() {
    let script = "[ $1 = 6 ] || { d=$1; shift; set -- $((d % 3)) \"$@\"; }; answer \"$@\"";
    let (_, ran) = mark("back", script, &["--seed", "1"]);
    let accepted: usize = table(&ran).last().expect("a table")[2].parse().unwrap();
    assert!(ran.status == 1 && (128..176).contains(&accepted), "{}", ran.text());
    assert!(ran.text().lines().any(|line| line.starts_with("first not accepted: ") && line.contains(" at or after ")), "{}", ran.text());
}

/// A host that takes a span for its first version alone is right where there is no entity, no version so late, or mostly if there is one
/// version; else the list is too short, or has a version outside it.
#[test]
fn a_host_that_lists_the_first_version_alone_loses_marks() {
    let (_, ran) = mark("first_alone", "[ $1 != 6 ] || set -- 3 $2 $3; answer \"$@\"", &["--seed", "1"]);
    let accepted: usize = table(&ran).last().expect("a table")[2].parse().unwrap();
    assert!(ran.status == 1 && (196..216).contains(&accepted), "{}", ran.text());
    assert!(ran.text().lines().any(|line| line.starts_with("first not accepted: ") && line.contains(", all versions, ")), "{}", ran.text());
}

/// What is kept of a span has its later time too.
#[test]
fn a_span_that_is_not_accepted_is_kept_whole() {
    let kept = Folder::new("mark_span_kept");
    let (_, ran) = mark("span_kept", "answer \"$@\"; [ $1 != 6 ] || printf x", &["--keep", &kept.path("")]);
    assert_eq!((ran.status, all(&ran).as_str()), (1, "all 224 192 0 32 by row 18"));
    let question = String::from_utf8(kept.read("question")).unwrap();
    let words: Vec<&str> = question.split_whitespace().collect();
    let truth = run(&[&["answer", &kept.path("log")], &words[..]].concat()).good();
    assert_eq!((words.len(), words[0]), (4, "6"));
    assert_eq!(kept.read("answer"), [&truth[..], b"x"].concat());
}

#[test]
fn without_an_answer_none_is_kept() {
    let kept = Folder::new("mark_none_kept");
    kept.file("answer", b"of an earlier mark");
    let (_, ran) = mark("none", "exit 1", &["--keep", &kept.path("")]);
    assert_eq!((ran.status, all(&ran).as_str()), (1, "all 224 0 224 none"));
    assert!(kept.read("log").len() >= 13 && kept.read("question").starts_with(b"0 "));
    assert!(!Path::new(&kept.path("answer")).exists());
    let (_, ran) = mark("no_folder", "exit 1", &["--keep", &kept.path("log")]);
    assert!(ran.status == 2 && ran.err.contains("mark_none_kept/log: "), "{ran:?}");
}

#[test]
fn standard_error_is_shown_up_to_the_first_answer_that_is_not_accepted() {
    let (_, ran) = mark("errors", "echo \"asked $1\" >&2; [ $1 != 2 ] || exit 1; answer \"$@\"", &[]);
    assert_eq!((all(&ran).as_str(), ran.err.as_str()), ("all 224 192 32 none", "asked 0\nasked 1\nasked 2\n"));
}

#[test]
fn the_first_difference_is_named() {
    let (_, ran) = mark("different", "answer \"$@\" | sed '1s/^R..../R\\x02\\x00\\x00\\x00/'", &[]);
    let last = ran.text().lines().last().unwrap();
    let expected = "byte 1: R, number of entities: 02000000 stands there, and the true answer has 00000001";
    assert_eq!((ran.status, last), (1, format!("first difference from the true answer: {expected}").as_str()));
}

#[test]
fn the_seed_settles_the_questions() {
    let script = "echo \"$@\" $(cksum) >>asked.txt";
    let asked = |name: &str, seed: &str| mark(name, script, &["--seed", seed]).0.read("asked.txt");
    let one = asked("seed_a", "1");
    assert_eq!(one.iter().filter(|byte| **byte == b'\n').count(), 224);
    assert_eq!(one, asked("seed_b", "1"));
    assert_ne!(one, asked("seed_c", "2"));
}

/// Answers recorded in one mark are of use for that seed alone.
#[test]
fn replayed_answers_are_accepted_only_with_the_seed_that_they_were_recorded_with() {
    let recorded = Folder::new("mark_recorded");
    let count = format!("n=$(ls '{0}' | grep -c .)", recorded.path("asked"));
    fs::create_dir(recorded.path("asked")).unwrap();
    let record = format!("{count}; answer \"$@\" | tee '{0}'/$n; : >'{1}'/$n", recorded.path(""), recorded.path("asked"));
    let (_, ran) = mark("record", &record, &[]);
    assert_eq!(all(&ran), "all 224 224 0 none");
    let replay = format!("n=$(ls | grep -c '^asked'); : >asked$n; cat '{}'/$n", recorded.path(""));
    let (_, again) = mark("replay", &replay, &["--seed", seed(&ran)]);
    assert_eq!((seed(&again), all(&again).as_str()), (seed(&ran), "all 224 224 0 none"));
    let (_, fresh) = mark("replay_fresh", &replay, &[]);
    assert_ne!(seed(&fresh), seed(&ran));
    // a log of one record may come again
    let accepted: usize = table(&fresh).last().unwrap()[2].parse().unwrap();
    assert!(accepted <= 56, "{}", fresh.text());
}

#[test]
fn no_answer_is_not_a_refused_one() {
    for (name, what, words, said) in [
        ("late", "exec sleep 20", &["--limit", "3"][..], "not ended after 3 s"),
        ("status", "exit 3", &[], "ended with a status that is not 0"),
        ("endless", "exec cat /dev/zero", &[], "longer than any answer"),
        ("drips", "while :; do printf x; sleep 0.05; done", &["--limit", "3"], "not ended after 3 s"),
    ] {
        let (_, ran) = mark(name, &first(what), words);
        assert_eq!((ran.status, all(&ran).as_str()), (1, "all 224 223 1 none"), "{name}");
        assert!(ran.text().ends_with(&format!(", version only, log of size 1: {said}\n")), "{}", ran.text());
    }
}

/// The program has ended, and what it left behind holds its output, for longer than a question may take.
#[test]
fn an_output_that_is_held_open_is_not_waited_for() {
    let (folder, ran) = mark("held", &first("answer \"$@\"; sleep 60 2>&- & echo $! >left; exit 0"), &["--limit", "20"]);
    let left = String::from_utf8(folder.read("left")).unwrap();
    assert_eq!(run_with(Command::new("kill").arg(left.trim()), b"").status, 0, "it was there to the end");
    assert_eq!((ran.status, all(&ran).as_str()), (0, "all 224 224 0 none"), "{}", ran.text());
    let seconds: f64 = ran.text().lines().last().unwrap().split_whitespace().nth(4).unwrap().parse().unwrap();
    assert!(seconds < 20.0, "{seconds}");
}

#[test]
fn a_program_may_have_words() {
    let folder = Folder::new("mark_words_of_its_own");
    let host = folder.host("host.sh", "[ \"$1\" = 'a b' ] && shift && answer \"$@\"");
    let ran = run(&["mark", "--seed", "5", "--", "sh", &host, "a b"]);
    assert_eq!((all(&ran).as_str(), ran.status), ("all 224 224 0 none", 0), "{}", ran.err);
}

/// Runs `mark` in a folder.
fn mark_in(folder: &Folder, words: &[&str]) -> Ran {
    run_with(Command::new(env!("CARGO_BIN_EXE_bozhtagul")).arg("mark").args(words).current_dir(folder.path("")), b"")
}

#[test]
fn a_file_here_has_to_be_named_as_one() {
    let folder = Folder::new("mark_here");
    folder.host("sh", "answer \"$@\"");
    for words in [&["sh"][..], &["--", "sh"]] {
        let ran = mark_in(&folder, words);
        assert_eq!((ran.status, ran.text()), (2, ""));
        assert!(ran.err.contains("sh: the file in this folder is ./sh;"), "{}", ran.err);
    }
    assert_eq!(all(&mark_in(&folder, &["./sh"])), "all 224 224 0 none");
}

#[test]
fn a_file_that_is_no_program_has_a_hint() {
    let folder = Folder::new("mark_no_program");
    folder.file("plain", b"#!/bin/sh\n");
    folder.host("bare", "");
    folder.file("bare", b"print(1)\n");
    folder.host("lost", "");
    folder.file("lost", b"#!/no/such/interpreter\n");
    for (name, said) in [
        ("./plain", "./plain: Permission denied (os error 13): 'chmod +x ./plain' lets it be started; or start it by words, as in "),
        ("./bare", "./bare: Exec format error (os error 8): its first line does not name its interpreter"),
        ("./lost", "./lost: No such file or directory (os error 2): the file is there, but not the program that its first line names"),
    ] {
        let ran = mark_in(&folder, &[name]);
        assert_eq!((ran.status, ran.text()), (2, ""));
        assert!(ran.err.contains(said), "{}", ran.err);
    }
}

#[test]
fn a_program_that_cannot_be_started_is_an_error_of_use() {
    let ran = run(&["mark", "/no/such/host"]);
    assert_eq!((ran.status, ran.text()), (2, ""));
    assert!(ran.err.ends_with("/no/such/host: No such file or directory (os error 2)\n"), "{}", ran.err);
    for words in [["--seed", "x"], ["--limit", "-1"]] {
        let (_, ran) = mark("words", "answer", &words);
        assert_eq!((ran.status, ran.text()), (2, ""));
        assert!(ran.err.contains(words[0]), "{}", ran.err);
    }
}
