//! The exported answer against the Rust version, byte for byte, and back through the exported check: every question, every size of memory,
//! the most records.

mod common;

use common::*;
use reference::host::Host;
use reference::log::{write, Record};
use reference::random::{self, Random};
use reference::sample::{births, in_turn, one_source, questions, spans};
use reference::{Question, Verdict, BETWEEN, DIRECTIONS};

const MOST: usize = 65_535;

/// With exactly enough memory, with more, and with too little of one or both.
fn every_size(logged: &Logged, question: &Question, met: &mut Met) {
    let length = logged.round_trip(question, 0).len();
    logged.round_trip(question, 1);
    logged.round_trip(question, 50);
    let n = 128 * logged.records;
    for (work, out, number) in [(n, length - 1, 13), (n + 1, 0, 13), (n - 1, length, 12), (n - 1, 0, 12), (0, length, 12)] {
        let result = logged.answer(question, work, out);
        assert_eq!(result, refused(number, 0));
        met.add(question, &result);
    }
    met.add(question, &logged.answer(question, n + 1, length));
}

/// Every question about random logs, in every size of memory.
fn all_questions(seed: u64, logs: usize, most: usize) {
    let mut met = Met::default();
    for records in sound_logs(seed, logs, most) {
        let logged = Logged::new(&records);
        questions(&records).iter().for_each(|question| every_size(&logged, question, &mut met));
    }
    for direction in 0..6 {
        met.exactly(direction, 1_000, &[0, 12, 13]);
    }
}

/// Every span of random logs, in every size of memory.
#[test]
fn all_spans_of_tiny_logs() {
    let mut met = Met::default();
    for records in sound_logs(76, 40, 6) {
        let logged = Logged::new(&records);
        spans(&records).iter().for_each(|question| every_size(&logged, question, &mut met));
    }
    met.exactly(BETWEEN.into(), 1_000, &[0, 12, 13]);
}

#[test]
fn all_questions_of_tiny_logs() {
    all_questions(71, 100, 6);
}

#[test]
fn all_questions_of_small_logs() {
    all_questions(72, 12, 20);
}

/// Some questions about logs of every shape of tree.
#[test]
fn larger_logs() {
    let mut random = Random::new(73);
    for length in (1..=70).chain([255, 256, 257, 1_000]) {
        for records in [random::records_of_length(&mut random, length), births(length), one_source(2 + length)] {
            let logged = Logged::new(&records);
            for direction in 0..DIRECTIONS {
                for _ in 0..4 {
                    let question = random::question_of(&mut random, &records, direction);
                    logged.round_trip(&question, 3);
                }
            }
        }
    }
}

/// 11, then 25, then the log, then 12, then 13: the first that is met.
#[test]
fn order_of_the_rows() {
    let mut random = Random::new(74);
    let mut met = [0; 26];
    for round in 0..20_000 {
        let fault = random::nearly_sound_log(&mut random, 12);
        let sound = random::sound_records(&mut random, 12);
        let direction = random.pick(&[0, 1, 2, 3, 4, 5, 6, 6, 7, 255]);
        let unsound = random.once_in(2);
        let log = if unsound { fault.log } else { write(&sound) };
        let mut question = random::question_of(&mut random, &sound, direction);
        if random.once_in(4) {
            std::mem::swap(&mut question.time, &mut question.until);
        }
        let enough = 128 * sound.len();
        let work = if random.once_in(2) { enough } else { random.index(enough) };
        let length = question.asked().map_or(500, |_| Host::new(&sound).answer(&question).len());
        let out = if random.once_in(2) { length } else { random.index(length) };
        let (number, position) = match () {
            _ if direction > 6 => (11, 0),
            _ if direction == 6 && question.time > question.until => (25, 0),
            _ if unsound => (fault.number, fault.position as usize),
            _ if work < enough => (12, 0),
            _ if out < length => (13, 0),
            _ => (0, 0),
        };
        let result = answer(&question, &log, work, out).0;
        match number {
            0 => assert_eq!(result, Ok(length as u64), "round {round}"),
            _ => assert_eq!(result, refused(number, position), "round {round}"),
        }
        met[number as usize] += 1;
    }
    for (number, times) in met.iter().enumerate() {
        // row 2 takes 65,535 records, and no row has the number 10
        let is_met = matches!(number, 0..14 | 25) && number != 2 && number != 10;
        assert_eq!(*times > 100, is_met, "row {number}: {times} times");
    }
}

/// A full history of the most records, whole and with too little memory.
fn full_history(records: &[Record], question: Question, count: usize) {
    let logged = Logged::new(records);
    let length = logged.round_trip(&question, 5).len();
    let checked = check(&question, &logged.commitment, &logged.host.answer(&question), 128 * count);
    assert!(matches!(checked, Ok(Verdict::Found { count: counted, .. }) if counted == count as u64));
    assert_eq!(logged.answer(&question, 128 * MOST, length - 1), refused(13, 0));
    assert_eq!(logged.answer(&question, 128 * MOST - 1, length), refused(12, 0));
}

#[test]
fn the_most_records_backward() {
    full_history(&one_source(MOST), ask(1, 1, u64::MAX), MOST);
    full_history(&in_turn(MOST), ask(1, 1, u64::MAX), MOST);
    full_history(&in_turn(MOST), ask(4, 1, MOST as u64 - 1), MOST);
}

#[test]
fn the_most_records_forward() {
    full_history(&one_source(MOST), ask(2, 0, 0), MOST - 1);
    full_history(&in_turn(MOST), ask(2, 0, 0), MOST - 1);
    full_history(&one_source(MOST), ask(5, 0, 0), MOST - 1);
}

/// All versions of the entity that has the most, and no more than one of them.
#[test]
fn the_most_versions_of_a_span() {
    let logged = Logged::new(&one_source(MOST));
    for (from, until, count) in [(0, u64::MAX, MOST - 1), (MOST as u64 / 2, MOST as u64 / 2, 1), (MOST as u64, u64::MAX, 0)] {
        let question = between(1, from, until);
        let answer = logged.round_trip(&question, 5);
        let checked = check(&question, &logged.commitment, &answer, 0);
        assert!(matches!(checked, Ok(Verdict::Listed(names)) if names.len() == count));
        assert_eq!(logged.answer(&question, 128 * MOST, answer.len() - 1), refused(13, 0));
        assert_eq!(logged.answer(&question, 128 * MOST - 1, answer.len()), refused(12, 0));
    }
}

#[test]
fn the_most_records_of_other_shapes() {
    let mut random = Random::new(75);
    full_history(&births(MOST), ask(1, 40_000, u64::MAX), 1);
    let fault = random::overlong_log(&mut random);
    let question = ask(1, 1, 1);
    assert_eq!(answer(&question, &fault.log, 128 * 65_536, 2_000_000).0, refused(2, fault.position as usize));
    let sound = reference::log::read(&fault.log[..fault.position as usize]).expect("65,535 sound records");
    let logged = Logged::new(&sound);
    for direction in 0..DIRECTIONS {
        logged.round_trip(&random::question_of(&mut random, &sound, direction), 1);
    }
}
