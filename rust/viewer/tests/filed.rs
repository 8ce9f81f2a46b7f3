//! Answers on file: each was made and accepted by the landing that its file is named after, and is kept as it was. It is still accepted, with the
//! verdict that it had.

mod common;

use std::fmt::Debug;
use std::str::FromStr;

use common::*;
use reference::hex::from_hex;
use reference::{Question, Verdict};
use viewer::{Direction, Span};

struct Filed {
    question: Question,
    commitment: Vec<u8>,
    /// As plain numbers: the verdict, its time unless it had none then, and the count of records or versions.
    verdict: (u64, Option<u64>, u64),
    /// The list of versions; empty if there is none.
    list: Vec<u8>,
    answer: Vec<u8>,
}

fn number<T: FromStr<Err: Debug>>(word: &str) -> T {
    word.parse().expect("a number")
}

/// A line about one version: log, commitment, direction, entity, time; verdict, its time and count of records; the answer. A time that was not
/// given is a dash.
fn of_one(words: &[&str]) -> Filed {
    let [_log, commitment, direction, entity, time, verdict, its_time, count, answer] = *words else {
        panic!("nine words are due: {words:?}");
    };
    let direction: Direction = direction.parse().expect("a direction");
    Filed {
        question: ask(direction.number(), number(entity), number(time)),
        commitment: from_hex(commitment),
        verdict: (number(verdict), its_time.parse().ok(), number(count)),
        list: Vec::new(),
        answer: from_hex(answer),
    }
}

/// A line about a span: log, commitment, direction, entity, from, until; verdict and count of versions; the list; the answer. An empty list is
/// a dash.
fn of_span(words: &[&str]) -> Filed {
    let [_log, commitment, Span::WORD, entity, from, until, verdict, count, list, answer] = *words else {
        panic!("ten words are due: {words:?}");
    };
    Filed {
        question: between(number(entity), number(from), number(until)),
        commitment: from_hex(commitment),
        verdict: (number(verdict), Some(0), number(count)),
        list: if list == "-" { Vec::new() } else { from_hex(list) },
        answer: from_hex(answer),
    }
}

fn all(text: &str, filed: fn(&[&str]) -> Filed) -> Vec<Filed> {
    let lines = text.lines().filter(|line| !line.starts_with('#'));
    lines.map(|line| filed(&line.split(' ').collect::<Vec<_>>())).collect()
}

fn numbers(verdict: Verdict) -> (u64, u64, u64, Vec<u8>) {
    match verdict {
        Verdict::NoEntity => (1, 0, 0, vec![]),
        Verdict::NotYet { first } => (2, first, 0, vec![]),
        Verdict::Found { time, count } => (3, time, count, vec![]),
        Verdict::NoneSoLate { last } => (4, last, 0, vec![]),
        Verdict::Listed(names) => (5, 0, names.len() as u64, reference::list(&names)),
    }
}

/// Each is accepted with its verdict, and not with its last byte changed or one byte more; gives how often each verdict was met.
fn all_hold(filed: &[Filed]) -> [usize; 5] {
    let mut met = [0; 5];
    for Filed { question, commitment, verdict, list, answer } in filed {
        let work = 128 * verdict.2 as usize;
        let (number, time, count, given) = numbers(check(question, commitment, answer, work).expect("accepted"));
        assert_eq!((number, verdict.1.map(|_| time), count), *verdict, "{question:?}");
        assert_eq!(given, *list, "{question:?}");
        met[number as usize - 1] += 1;
        let mut other = answer.clone();
        *other.last_mut().expect("some bytes") ^= 1;
        assert!(check(question, commitment, &other, work).is_err(), "{question:?}");
        let longer = [&answer[..], &[0]].concat();
        assert_eq!(check(question, commitment, &longer, work), refused(18, answer.len()), "{question:?}");
    }
    met
}

#[test]
fn answers_of_document_01() {
    assert_eq!(all_hold(&all(include_str!("on_file/document-01.txt"), of_one)), [3, 9, 33, 0, 0]);
}

#[test]
fn answers_that_look_ahead() {
    assert_eq!(all_hold(&all(include_str!("on_file/A1.txt"), of_one)), [3, 0, 33, 9, 0]);
}

#[test]
fn answers_to_spans() {
    assert_eq!(all_hold(&all(include_str!("on_file/A2.txt"), of_span)), [3, 0, 0, 0, 21]);
}
