//! The cases of section Log K.

mod common;

use common::*;
use reference::forge::{d, e, s, t, trace, v};
use reference::hex::{from_hex, to_hex};
use reference::{Outcome, Part, Question, Written};

const COMMITMENT: &str = "afa480e13388337b3ec74fcea39db57dddd6320386af49166a8fbf0d6f4511e1";

#[test]
fn log_and_commitment() {
    assert_eq!(log_k().len(), 62);
    assert_eq!(reference::log(&log_k()), Written { number: 0, position: 0, length: 4 });
    assert_eq!(to_hex(&commit(&log_k())), COMMITMENT);
}

/// The letters of the opened strings.
fn letters(answer: &[u8]) -> String {
    let mut text = String::new();
    let mut place = 0;
    while place < answer.len() {
        let letter = answer[place];
        text.push(letter as char);
        place += match letter {
            b'R' => 65,
            b'G' => 57,
            b'L' => 77,
            b'N' | b'P' => 97,
            _ => return text,
        };
    }
    text
}

fn found(q: Question, length: usize, path: &str, records: &[Vec<u8>], time: u64) {
    let answer = answer(q, &log_k());
    // asked at its own time, a version is found by either relation and with the same strings
    for direction in [q.direction % 3, q.direction % 3 + 3] {
        assert_eq!(common::answer(ask(direction, q.entity, time), &log_k()), answer);
    }
    assert_eq!(answer.len(), length);
    assert_eq!(letters(&answer), path);
    if let Some(letter @ (b'B' | b'F')) = path.bytes().last() {
        assert!(answer.ends_with(&trace(letter, records)));
    }
    let commitment = from_hex(COMMITMENT);
    assert_eq!(check(q, &commitment, &answer), accepted(3, time, records.len() as u64));
    let part = common::records(q, &commitment, &answer);
    let bytes = &answer[part.start as usize..(part.start + part.length) as usize];
    assert_eq!(bytes, records.concat());
    if !records.is_empty() {
        assert_eq!(part.start as usize, answer.len() - records.concat().len());
    }
}

fn stopped(q: Question, log: &[u8], length: usize, path: &str, verdict: u64, time: u64) {
    let answer = answer(q, log);
    assert_eq!(answer.len(), length);
    assert_eq!(letters(&answer), path);
    let commitment = commit(log);
    assert_eq!(check_with(q, &commitment, &answer, 0), accepted(verdict, time, 0));
    assert_eq!(common::records(q, &commitment, &answer), Part { start: 0, length: 0 });
}

#[test]
fn backward_2_at_35() {
    let records = [e(1, 10), e(2, 20), v(2, 30, 7, 1, 0)];
    found(ask(1, 2, 35), 446, "RPGNLB", &records, 30);
}

#[test]
fn forward_1_at_39() {
    let records = [s(1, 10), d(2, 30, 7, 0), v(1, 40, 8, 0, 1)];
    found(ask(2, 1, 39), 451, "RPGNLF", &records, 10);
}

#[test]
fn forward_2_at_20() {
    let records = [s(2, 20), t(2, 30, 0), d(1, 40, 8, 1)];
    found(ask(2, 2, 20), 446, "RPGNLF", &records, 20);
}

#[test]
fn version_only() {
    found(ask(0, 2, 35), 393, "RPGNL", &[], 30);
    found(ask(0, 1, u64::MAX), 393, "RPGNL", &[], 40);
}

#[test]
fn not_yet_and_no_entity() {
    for direction in 0..3 {
        stopped(ask(direction, 2, 19), &log_k(), 219, "RPG", 2, 20);
        stopped(ask(direction, 2, 0), &log_k(), 219, "RPG", 2, 20);
        stopped(ask(direction, 1, 9), &log_k(), 219, "RPG", 2, 10);
    }
    for direction in 0..6 {
        for time in [0, 35, u64::MAX] {
            stopped(ask(direction, 3, time), &log_k(), 65, "R", 1, 0);
            stopped(ask(direction, 0, time), &log_k(), 65, "R", 1, 0);
            stopped(ask(direction, 3, time), &[birth(1, 10), birth(5, 20)].concat(), 162, "RP", 1, 0);
        }
    }
}

#[test]
fn none_so_late() {
    for direction in 3..6 {
        stopped(ask(direction, 2, 31), &log_k(), 219, "RPG", 4, 30);
        stopped(ask(direction, 2, u64::MAX), &log_k(), 219, "RPG", 4, 30);
        stopped(ask(direction, 1, 41), &log_k(), 219, "RPG", 4, 40);
    }
}

#[test]
fn looking_ahead() {
    let [birth_1, birth_2] = [e(1, 10), e(2, 20)];
    let history = [birth_1.clone(), birth_2.clone(), v(2, 30, 7, 1, 0)];
    for time in 21..=30 {
        found(ask(3, 2, time), 393, "RPGNL", &[], 30);
        found(ask(4, 2, time), 446, "RPGNLB", &history, 30);
        found(ask(5, 2, time), 429, "RPGNLF", &[s(2, 30), d(1, 40, 8, 0)], 30);
    }
    for time in 0..=20 {
        found(ask(3, 2, time), 393, "RPGNL", &[], 20);
        found(ask(4, 2, time), 411, "RPGNLB", &[birth_2.clone()], 20);
        found(ask(5, 2, time), 446, "RPGNLF", &[s(2, 20), t(2, 30, 0), d(1, 40, 8, 1)], 20);
    }
    for time in 0..=10 {
        found(ask(4, 1, time), 411, "RPGNLB", &[birth_1.clone()], 10);
    }
    for time in 11..=40 {
        found(ask(5, 1, time), 411, "RPGNLF", &[s(1, 40)], 40);
    }
}

/// The versions of a span, each an entity and a time.
fn listed(q: Question, length: usize, path: &str, versions: &[(u32, u64)]) {
    let answer = answer(q, &log_k());
    assert_eq!(answer.len(), length);
    assert_eq!(letters(&answer), path);
    let commitment = from_hex(COMMITMENT);
    let list: Vec<u8> = versions.iter().flat_map(|(entity, time)| entry(*entity, *time)).collect();
    let verdict = accepted(5, 0, versions.len() as u64);
    for more in [0, 1, 12] {
        assert_eq!(list_with(q, &commitment, &answer, 0, list.len() + more), (verdict, list.clone()));
    }
    for less in 1..=list.len() {
        assert_eq!(list_with(q, &commitment, &answer, 0, list.len() - less).0, refused(13, 0));
    }
    assert_eq!(common::records(q, &commitment, &answer), Part { start: 0, length: 0 });
}

#[test]
fn all_versions_between_two_times() {
    listed(between(1, 10, 40), 470, "RPGNLL", &[(1, 10), (1, 40)]);
    listed(between(1, 0, u64::MAX), 470, "RPGNLL", &[(1, 10), (1, 40)]);
    listed(between(1, 11, 40), 393, "RPGNL", &[(1, 40)]);
    listed(between(1, 10, 39), 393, "RPGNL", &[(1, 10)]);
    listed(between(2, 20, 29), 393, "RPGNL", &[(2, 20)]);
    listed(between(2, 30, 30), 393, "RPGNL", &[(2, 30)]);
    // a span in a gap opens N, and one outside all keys nothing below G
    listed(between(2, 21, 29), 316, "RPGN", &[]);
    listed(between(2, 25, 25), 316, "RPGN", &[]);
    listed(between(2, 31, 99), 219, "RPG", &[]);
    listed(between(2, 0, 19), 219, "RPG", &[]);
    listed(between(2, u64::MAX, u64::MAX), 219, "RPG", &[]);
    for (from, until) in [(0, 0), (0, u64::MAX), (u64::MAX, u64::MAX)] {
        stopped(between(3, from, until), &log_k(), 65, "R", 1, 0);
        stopped(between(3, from, until), &[birth(1, 10), birth(5, 20)].concat(), 162, "RP", 1, 0);
    }
    // one version: its L stands right below G
    let one = birth(7, 5);
    assert_eq!(letters(&common::answer(between(7, 5, 5), &one)), "RGL");
    assert_eq!(letters(&common::answer(between(7, 0, 4), &one)), "RG");
}

/// The least and the greatest time that a question or a version can have.
#[test]
fn ends_of_time() {
    let log = [birth(1, 0), birth(2, 5), flow(2, 1, 9, u64::MAX)].concat();
    let commitment = commit(&log);
    for (direction, entity, time, verdict) in [
        (0, 1, 0, accepted(3, 0, 0)),
        (3, 1, 0, accepted(3, 0, 0)),
        (3, 1, 1, accepted(3, u64::MAX, 0)),
        (0, 1, u64::MAX - 1, accepted(3, 0, 0)),
        (0, 1, u64::MAX, accepted(3, u64::MAX, 0)),
        (3, 1, u64::MAX, accepted(3, u64::MAX, 0)),
        (0, 2, 0, accepted(2, 5, 0)),
        (3, 2, 0, accepted(3, 5, 0)),
        (0, 2, u64::MAX, accepted(3, 5, 0)),
        (3, 2, u64::MAX, accepted(4, 5, 0)),
    ] {
        let q = ask(direction, entity, time);
        assert_eq!(check(q, &commitment, &answer(q, &log)), verdict, "{q:?}");
    }
}

#[test]
fn refused_logs() {
    let at = |number, position| Written { number, position, length: 0 };
    assert_eq!(reference::log(&[birth(1, 10), birth(2, 10)].concat()), at(5, 13));
    assert_eq!(reference::log(&[log_k(), flow(1, 1, 7, 50)].concat()), at(9, 62));
    assert_eq!(reference::log(&flow(1, 2, 7, 10)), at(7, 0));
}

#[test]
fn refused_logs_reach_commitment_and_answer() {
    for (log, number, position) in [
        ([birth(1, 10), birth(2, 10)].concat(), 5, 13),
        ([log_k(), flow(1, 1, 7, 50)].concat(), 9, 62),
        (flow(1, 2, 7, 10), 7, 0),
        (vec![], 1, 0),
    ] {
        assert_eq!(commit_with(&log, 0, 0).0, Outcome { number, position });
        assert_eq!(answer_with(ask(0, 1, 1), &log, 0, 0).0, Written { number, position, length: 0 });
        assert_eq!(commit_with(&log, ROOM, 64).0, Outcome { number, position });
    }
}

#[test]
fn work_area() {
    let q = ask(1, 2, 35);
    let (commitment, bytes) = (commit(&log_k()), answer(q, &log_k()));
    assert_eq!(check_with(q, &commitment, &bytes, 384), accepted(3, 30, 3));
    assert_eq!(check_with(q, &commitment, &bytes, 383), refused(12, 0));
    let three = [birth(1, 10), birth(2, 20), flow(1, 2, 7, 30)].concat();
    assert_eq!(commit_with(&three, 384, 32).0, Outcome { number: 0, position: 0 });
    assert_eq!(commit_with(&three, 383, 32).0, Outcome { number: 12, position: 0 });
    for entity in [1, 9] {
        for q in (0..6).map(|direction| ask(direction, entity, 35)).chain([between(entity, 0, 35)]) {
            assert_eq!(answer_with(q, &three, 384, 9000).0.number, 0);
            let refusal = Written { number: 12, position: 0, length: 0 };
            assert_eq!(answer_with(q, &three, 383, 9000).0, refusal);
        }
    }
}

fn list(input: &[u8]) -> String {
    let (written, text) = with_output(40_000, |out| {
        let written = reference::listing(input, out);
        (written, written.length as usize)
    });
    assert_eq!((written.number, written.position), (0, 0));
    if !text.is_empty() {
        let refusal = Written { number: 13, position: 0, length: 0 };
        assert_eq!(with_output(text.len() - 1, |out| (reference::listing(input, out), 0)).0, refusal);
    }
    String::from_utf8(text).unwrap()
}

#[test]
fn listing() {
    let text = "1 10 birth\n2 20 birth\n2 30 flow 7 from 1 10\n1 40 flow 8 from 2 30\n";
    assert_eq!(list(&log_k()), text);
    assert_eq!(list(&[]), "refused 1 at 0\n");
    assert_eq!(list(&[log_k(), flow(1, 1, 7, 50)].concat()), "refused 9 at 62\n");
    assert_eq!(list(&birth(u32::MAX, u64::MAX)), "4294967295 18446744073709551615 birth\n");
    assert_eq!(list(&birth(0, 0)), "0 0 birth\n");
}

#[test]
fn listing_limits() {
    let births = |count: u32| -> Vec<u8> { (0..count).flat_map(|i| birth(i, u64::from(i))).collect() };
    assert_eq!(list(&births(512)).lines().count(), 512);
    assert_eq!(list(&births(513)), "too long\n");
    assert_eq!(list(&[births(512), vec![9]].concat()), "too long\n");
    assert_eq!(list(&[births(511), vec![9]].concat()), "refused 3 at 6643\n");
    assert_eq!(list(&[births(511), birth(0, 600), vec![9; 2000]].concat()), "refused 6 at 6643\n");
    assert_eq!(list(&vec![9; 9216]), "refused 3 at 0\n");
    assert_eq!(list(&vec![9; 9217]), "too long\n");
    // The longest input that is listed: 2 births and 510 flows have 9,206 bytes.
    let flows: Vec<u8> = (0..510).flat_map(|i| flow(0, 1, 5, 2 + i)).collect();
    let log = [births(2), flows].concat();
    assert_eq!(log.len(), 9206);
    let text = list(&log);
    assert_eq!(text.lines().count(), 512);
    assert!(text.ends_with("1 511 flow 5 from 0 0\n"));
    assert_eq!(list(&[log.clone(), vec![2; 10]].concat()), "too long\n");
}
