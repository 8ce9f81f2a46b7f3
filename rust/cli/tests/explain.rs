//! Answers and digests as the handout prints them, and answers that cannot be read to their end.

mod common;

use common::*;

const HANDOUT: &str = include_str!("../../../practical/HANDOUT.md");

/// The lines of the handout's block with that name.
fn block(name: &str) -> String {
    let (_, text) = HANDOUT.split_once(&format!("```{name}\n")).expect("the block");
    text.split_once("```").expect("its end").0.to_string()
}

fn explained(answer: &[u8]) -> Ran {
    run_on(answer, &["explain", "-"])
}

#[test]
fn a_backward_answer_is_the_table_of_the_handout() {
    let text = explained(&Logged::k().answer(1, 2, 35)).good();
    assert_eq!(String::from_utf8(text).unwrap(), block("answer"));
}

#[test]
fn a_forward_trace_is_the_table_of_the_handout_further_on() {
    let k = Logged::k();
    let proof = k.answer(0, 2, 20).len();
    for (answer, name) in [(k.answer(2, 2, 20), "forward"), (k.answer(5, 2, 21), "ahead")] {
        let text = String::from_utf8(explained(&answer).good()).unwrap();
        let trace = text.lines().filter_map(|line| {
            let (place, rest) = line.trim_start().split_once(' ')?;
            Some(format!("{:>4} {rest}\n", place.parse::<usize>().ok()?.checked_sub(proof)?))
        });
        assert_eq!(trace.collect::<String>(), block(name));
    }
}

#[test]
fn answers_that_end_early_are_read() {
    let k = Logged::k();
    for (question, strings) in [
        ((0, 3, 35), "R"),
        ((1, 2, 19), "RPG"),
        ((0, 2, 35), "RPGNL"),
        ((5, 3, 35), "R"),
        ((4, 2, 31), "RPG"),
        ((3, 2, 21), "RPGNL"),
    ] {
        assert_eq!(letters(&k.answer(question.0, question.1, question.2)), strings);
    }
}

/// The letters of the strings that are read.
fn letters(answer: &[u8]) -> String {
    let text = String::from_utf8(explained(answer).good()).unwrap();
    let meanings = text.lines().filter_map(|line| line.split_whitespace().nth(2));
    meanings.filter(|meaning| meaning.len() == 1).collect()
}

#[test]
fn strings_of_a_list_follow_each_other() {
    let k = Logged::k();
    for (entity, from, until, strings) in [(1, 10, 40, "RPGNLL"), (2, 30, 99, "RPGNL"), (2, 21, 29, "RPGN"), (2, 31, 99, "RPG"), (3, 0, 9, "R")] {
        assert_eq!(letters(&k.between(entity, from, until)), strings);
    }
    let text = String::from_utf8(explained(&k.between(1, 10, 40)).good()).unwrap();
    assert!(text.ends_with(&block("between")), "{text}");
}

#[test]
fn what_cannot_be_read_is_said_last() {
    let good = Logged::k().answer(1, 2, 35);
    let changed = |place: usize, byte: u8| {
        let mut answer = good.clone();
        answer[place] = byte;
        answer
    };
    for (answer, lines, said) in [
        (good[..0].to_vec(), 0, "byte 0: the answer ends, and R is due"),
        (changed(65, b'N'), 7, "byte 65: 4e is not a letter due, which is P or G"),
        (good[..70].to_vec(), 8, "byte 66: the answer ends inside P: left: least key, of which 4 of 8 bytes are there"),
        (changed(316, b'B'), 26, "byte 316: 42 is not a letter due, which is N or L"),
        (changed(397, 9), 45, "byte 446: the answer ends, and E or V is due"),
        (changed(397, 2), 39, "byte 424: 22 bytes after the end"),
        (changed(411, b'S'), 36, "byte 411: 53 is not a letter due, which is E or V"),
        ([&good[..], b"xy"].concat(), 45, "byte 446: 2 bytes after the end"),
    ] {
        let ran = explained(&answer);
        assert_eq!((ran.status, ran.err.as_str()), (1, ""), "{said}");
        let all: Vec<&str> = ran.text().lines().collect();
        assert_eq!((all.len() - 1, *all.last().unwrap()), (lines, said));
    }
}

#[test]
fn each_place_of_a_forward_answer_has_its_letters() {
    let k = Logged::k();
    let (good, proof) = (k.answer(2, 2, 20), k.answer(0, 2, 20).len());
    for (place, byte, due) in [(0, b'S', "B or F or N or L"), (5, b'T', "S"), (18, b'S', "T or D or V"), (35, b'E', "T or D or V")] {
        let mut answer = good.clone();
        answer[proof + place] = byte;
        let ran = explained(&answer);
        let said = format!("byte {}: {byte:02x} is not a letter due, which is {due}", proof + place);
        assert_eq!((ran.status, ran.text().lines().last()), (1, Some(said.as_str())));
    }
}

#[test]
fn a_position_that_no_earlier_record_has_is_said() {
    let mut answer = Logged::k().answer(1, 2, 35);
    answer[441] = 2;
    let text = String::from_utf8(explained(&answer).good()).unwrap();
    assert!(text.contains(" 438  00000002          position of the previous version, which no earlier record has\n"), "{text}");
}

#[test]
fn digests_are_those_of_the_handout() {
    let text = String::from_utf8(run_on(&Logged::k().log, &["digests", "-"]).good()).unwrap();
    let (origin, digests) = text.split_once('\n').unwrap();
    assert!(origin.starts_with("# ") && origin.contains("independent Rust version"), "{origin}");
    assert_eq!(digests, block("digests"));
}

#[test]
fn a_log_that_is_not_sound_has_no_digests() {
    let ran = run_on(&Logged::k().log[..61], &["digests", "-"]);
    assert_eq!((ran.status, ran.text()), (1, ""));
    assert!(ran.err.contains("standard input: refused 4 at 44: record cut short"), "{}", ran.err);
}
