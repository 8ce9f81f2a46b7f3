//! Document 01's section Log K through the exported calls, sentence by sentence; every result is the Rust version's too.

mod common;

use common::*;
use reference::forge::{d, e, s, t, trace, v};
use reference::hex::to_hex;
use reference::log::{write, Record};
use reference::sample::{birth, births, flow, log_k};
use reference::{Question, Verdict};
use viewer::Refusal;

/// A question about a log: the answer's length, its records, and the verdict of its check.
fn case(log: &[Record], question: Question, length: usize, records: &[Vec<u8>], verdict: Verdict) {
    let logged = Logged::new(log);
    let answer = logged.round_trip(&question, 9);
    assert_eq!(answer.len(), length, "{question:?}");
    let letter = if question.direction % 3 == 1 { b'B' } else { b'F' };
    assert!(records.is_empty() || answer.ends_with(&trace(letter, records)), "{question:?}");
    assert_eq!(check(&question, &logged.commitment, &answer, 128 * records.len()), Ok(verdict));
    if let Typed::One(asked) = typed(&question) {
        let part = with_work(128 * records.len(), |work| viewer::records(&asked, &logged.commitment, &answer, work).to_vec());
        assert_eq!(part, records.concat(), "{question:?}");
    }
}

fn version(time: u64, count: u64) -> Verdict {
    Verdict::Found { time, count }
}

#[test]
fn its_62_bytes_and_its_commitment() {
    let k = Logged::new(&log_k());
    assert_eq!((k.log.len(), viewer::log(&k.log)), (62, Ok(4)));
    // as `crates/logk` proves it of the definitions
    let proved = "afa480e13388337b3ec74fcea39db57dddd6320386af49166a8fbf0d6f4511e1";
    assert_eq!(to_hex(&k.commitment), proved);
    assert_eq!(k.commitment, k.host.commitment());
}

#[test]
fn found() {
    let k = log_k();
    case(&k, ask(1, 2, 35), 446, &[e(1, 10), e(2, 20), v(2, 30, 7, 1, 0)], version(30, 3));
    case(&k, ask(2, 1, 39), 451, &[s(1, 10), d(2, 30, 7, 0), v(1, 40, 8, 0, 1)], version(10, 3));
    case(&k, ask(2, 2, 20), 446, &[s(2, 20), t(2, 30, 0), d(1, 40, 8, 1)], version(20, 3));
    case(&k, ask(0, 2, 35), 393, &[], version(30, 0));
    case(&k, ask(0, 1, u64::MAX), 393, &[], version(40, 0));
}

#[test]
fn found_looking_ahead() {
    let k = log_k();
    case(&k, ask(3, 2, 21), 393, &[], version(30, 0));
    case(&k, ask(4, 2, 21), 446, &[e(1, 10), e(2, 20), v(2, 30, 7, 1, 0)], version(30, 3));
    case(&k, ask(5, 2, 21), 429, &[s(2, 30), d(1, 40, 8, 0)], version(30, 2));
    case(&k, ask(5, 2, 20), 446, &[s(2, 20), t(2, 30, 0), d(1, 40, 8, 1)], version(20, 3));
    case(&k, ask(3, 1, 0), 393, &[], version(10, 0));
    case(&k, ask(5, 1, 11), 411, &[s(1, 40)], version(40, 1));
}

#[test]
fn not_yet_and_no_entity() {
    for direction in 0..3 {
        case(&log_k(), ask(direction, 2, 19), 219, &[], Verdict::NotYet { first: 20 });
        case(&log_k(), ask(direction, 2, 0), 219, &[], Verdict::NotYet { first: 20 });
    }
    for direction in 0..6 {
        case(&log_k(), ask(direction, 3, 35), 65, &[], Verdict::NoEntity);
        case(&log_k(), ask(direction, 3, 0), 65, &[], Verdict::NoEntity);
        case(&log_k(), ask(direction, 0, 35), 65, &[], Verdict::NoEntity);
        case(&[birth(1, 10), birth(5, 20)], ask(direction, 3, 35), 162, &[], Verdict::NoEntity);
    }
}

#[test]
fn none_so_late() {
    for direction in 3..6 {
        case(&log_k(), ask(direction, 2, 31), 219, &[], Verdict::NoneSoLate { last: 30 });
        case(&log_k(), ask(direction, 2, u64::MAX), 219, &[], Verdict::NoneSoLate { last: 30 });
    }
}

/// A span of Log K: the answer's length, and its versions.
fn span(question: Question, length: usize, versions: &[(u32, u64)]) {
    case(&log_k(), question, length, &[], listed(versions).expect("a list"));
}

#[test]
fn all_versions_between_two_times() {
    span(between(1, 10, 40), 470, &[(1, 10), (1, 40)]);
    span(between(1, 0, u64::MAX), 470, &[(1, 10), (1, 40)]);
    span(between(2, 20, 29), 393, &[(2, 20)]);
    span(between(2, 30, 30), 393, &[(2, 30)]);
    span(between(2, 21, 29), 316, &[]);
    span(between(2, 31, 99), 219, &[]);
    span(between(2, 0, 19), 219, &[]);
    case(&log_k(), between(3, 0, 99), 65, &[], Verdict::NoEntity);
    case(&[birth(1, 10), birth(5, 20)], between(3, 0, 99), 162, &[], Verdict::NoEntity);
    let k = Logged::new(&log_k());
    assert_eq!(k.answer(&between(1, 41, 40), 512, 999), refused(25, 0));
    assert_eq!(check(&between(1, 41, 40), &k.commitment, &[], 0), refused(25, 0));
}

/// The least and the greatest time that a question or a version can have.
#[test]
fn ends_of_time() {
    let log = [birth(1, 0), birth(2, 5), flow(2, 1, 9, u64::MAX)];
    for (direction, entity, time, length, verdict) in [
        (0, 1, 0, 393, version(0, 0)),
        (3, 1, 0, 393, version(0, 0)),
        (3, 1, 1, 393, version(u64::MAX, 0)),
        (0, 1, u64::MAX - 1, 393, version(0, 0)),
        (0, 1, u64::MAX, 393, version(u64::MAX, 0)),
        (3, 1, u64::MAX, 393, version(u64::MAX, 0)),
        (0, 2, 0, 219, Verdict::NotYet { first: 5 }),
        (3, 2, 0, 296, version(5, 0)),
        (0, 2, u64::MAX, 296, version(5, 0)),
        (3, 2, u64::MAX, 219, Verdict::NoneSoLate { last: 5 }),
    ] {
        case(&log, ask(direction, entity, time), length, &[], verdict);
    }
}

/// What every call on a log says of it, with a work area of so many bytes.
fn calls_on(log: &[u8], work: usize) -> Result<(), Refusal> {
    let mut out = [0; 32];
    let committed = with_work(work, |work| viewer::commitment(log, work, &mut out));
    let answered = answer(&ask(1, 1, 39), log, work, 2_000_000).0;
    assert_eq!(answered.map(|_| ()), committed);
    assert_eq!(out == [0; 32], committed.is_err());
    committed
}

#[test]
fn refused_logs() {
    let then = |more: Record| write(&[&log_k()[..], &[more]].concat());
    for (log, number, position) in [
        (write(&[birth(1, 10), birth(2, 10), flow(1, 2, 7, 30)]), 5, 13),
        (then(flow(1, 1, 7, 50)), 9, 62),
        (write(&[flow(1, 2, 7, 10)]), 7, 0),
    ] {
        assert_eq!(viewer::log(&log), refused(number, position));
        assert_eq!(calls_on(&log, 1024), refused(number, position));
    }
}

#[test]
fn records_65535_are_sound_and_one_more_is_not() {
    let log = write(&births(65_536));
    let most = &log[..13 * 65_535];
    assert_eq!(viewer::log(most), Ok(65_535));
    assert_eq!(calls_on(most, 128 * 65_535), Ok(()));
    assert_eq!(viewer::log(&log), refused(2, most.len()));
    assert_eq!(calls_on(&log, 128 * 65_536), refused(2, most.len()));
    // even if nothing but its first byte is there, and whatever that is
    assert_eq!(viewer::log(&[most, &[9]].concat()), refused(2, most.len()));
}

#[test]
fn work_area_of_384_and_of_383() {
    let k = Logged::new(&log_k());
    for question in [ask(1, 2, 35), ask(2, 1, 39), ask(2, 2, 20), ask(4, 2, 21), ask(5, 2, 20)] {
        let answer = k.round_trip(&question, 0);
        assert!(check(&question, &k.commitment, &answer, 384).is_ok());
        assert_eq!(check(&question, &k.commitment, &answer, 383), refused(12, 0));
    }
    let three = write(&log_k()[..3]);
    assert_eq!(calls_on(&three, 384), Ok(()));
    assert_eq!(calls_on(&three, 383), refused(12, 0));
}

#[test]
fn listing() {
    let mut out = [7; 200];
    let text = "1 10 birth\n2 20 birth\n2 30 flow 7 from 1 10\n1 40 flow 8 from 2 30\n";
    assert_eq!(viewer::listing(&write(&log_k()), &mut out), Ok(text.len() as u64));
    assert_eq!((&out[..text.len()], &out[text.len()..]), (text.as_bytes(), &[7; 200][text.len()..]));
}
