//! The exported check of damaged answers, against the Rust version: every byte altered, every cut, bytes added, and traces whose records
//! are whole but show something else. None of them passes.

mod common;

use common::*;
use reference::edit::{any_count, edit, edit_letter};
use reference::forge::{pieces, records_of, trace_with_count};
use reference::host::Host;
use reference::random::{self, Random};
use reference::sample::log_k;
use reference::trace::trace_letter;
use reference::Question;

/// Enough for the records that these answers claim, unless a change makes them claim more.
const WORK: usize = 128 * 12;

/// Every cut of the answer, and bytes added: any one, and some more.
fn cut_and_extend(asked: &Asked, met: &mut Met) {
    let good = &asked.defined;
    for length in 0..good.len() {
        let checked = asked.check(&good[..length], WORK);
        assert_eq!(checked.as_ref().unwrap_err().number, 15);
        met.add(&asked.question, &checked);
    }
    for extra in 0..=255 {
        for longer in [[&good[..], &[extra]].concat(), [&good[..], &[extra; 22]].concat()] {
            let checked = asked.check(&longer, WORK);
            assert_eq!(checked, refused(18, good.len()));
            met.add(&asked.question, &checked);
        }
    }
}

/// Every byte of the answer altered to each of the values that `values` gives for it and its place.
fn alter(asked: &Asked, met: &mut Met, values: impl Fn(u8, usize) -> Vec<u8>) {
    let mut bytes = asked.defined.clone();
    for place in 0..bytes.len() {
        let good = bytes[place];
        for value in values(good, place) {
            bytes[place] = value;
            let checked = asked.check(&bytes, WORK);
            assert!(checked.is_err());
            met.add(&asked.question, &checked);
        }
        bytes[place] = good;
    }
}

/// Every value of every byte of Log K's answer.
fn every_value(question: Question) -> Met {
    let mut met = Met::default();
    let asked = Asked::new(&Host::new(&log_k()), question);
    assert!(asked.check(&asked.defined, WORK).is_ok());
    cut_and_extend(&asked, &mut met);
    alter(&asked, &mut met, |good, _| (0..=255).filter(|value| *value != good).collect());
    assert_eq!(met.total(), asked.defined.len() * 256 + 512);
    met
}

#[test]
fn every_byte_of_a_backward_answer() {
    every_value(ask(1, 2, 35)).exactly(1, 1, &[12, 15, 16, 17, 18, 19, 20, 21, 22, 23, 24]);
    every_value(ask(4, 2, 21)).exactly(4, 1, &[12, 15, 16, 17, 18, 19, 20, 21, 22, 23, 24]);
}

#[test]
fn every_byte_of_a_forward_answer() {
    every_value(ask(2, 1, 39)).exactly(2, 1, &[12, 15, 16, 17, 18, 19, 20, 21, 23, 24]);
    every_value(ask(5, 1, 0)).exactly(5, 1, &[12, 15, 16, 17, 18, 19, 20, 21, 23, 24]);
}

#[test]
fn every_byte_of_answers_without_trace() {
    for question in [ask(0, 2, 35), ask(1, 2, 19), ask(2, 3, 0), ask(3, 2, 21), ask(4, 2, 31), ask(5, 3, 0)] {
        every_value(question).exactly(question.direction.into(), 1, &[15, 16, 17, 18]);
    }
}

#[test]
fn every_byte_of_answers_to_spans() {
    for question in [between(1, 10, 40), between(2, 21, 30), between(2, 21, 29), between(2, 31, 99), between(3, 0, 9)] {
        every_value(question).exactly(6, 1, &[15, 16, 17, 18]);
    }
}

/// A known question about a random log, with its answer.
fn any_asked(random: &mut Random, most: usize) -> Asked {
    let records = random::sound_records(random, most);
    let question = random::known_question(random, &records);
    Asked::new(&Host::new(&records), question)
}

#[test]
fn every_byte_of_random_answers() {
    let mut random = Random::new(51);
    let mut met = Met::default();
    for round in 0..470 {
        let asked = any_asked(&mut random, 9);
        cut_and_extend(&asked, &mut met);
        alter(&asked, &mut met, |good, place| vec![good ^ 1 << ((place + round) % 8), !good]);
    }
    for (only, backward, forward) in [(0, 1, 2), (3, 4, 5)] {
        met.exactly(only, 100, &[15, 16, 17, 18]);
        met.exactly(backward, 3, &[12, 15, 16, 17, 18, 19, 20, 21, 22, 23, 24]);
        met.exactly(forward, 3, &[12, 15, 16, 17, 18, 19, 20, 21, 23, 24]);
    }
    met.exactly(6, 100, &[15, 16, 17, 18]);
    assert!(met.total() > 100_000, "{} answers", met.total());
}

/// Altered, cut, extended, or with a part taken out, put in, doubled or overwritten by another.
#[test]
fn parts_of_random_answers() {
    let mut random = Random::new(52);
    let mut met = Met::default();
    for _ in 0..8_000 {
        let asked = any_asked(&mut random, 12);
        for _ in 0..10 {
            let bytes = random::damaged_answer(&mut random, &asked.defined);
            let checked = asked.check(&bytes, WORK);
            assert!(checked.is_err());
            met.add(&asked.question, &checked);
        }
    }
    for (only, backward, forward) in [(0, 1, 2), (3, 4, 5)] {
        met.exactly(only, 100, &[15, 16, 17, 18]);
        met.includes(backward, 5, &[12, 15, 16, 17, 18, 19, 20, 21, 23, 24]);
        met.includes(forward, 5, &[12, 15, 16, 17, 18, 19, 20, 21, 23, 24]);
    }
    met.exactly(6, 100, &[15, 16, 17, 18]);
}

/// Whole strings of a span's answer left out, doubled or exchanged: one version fewer, one twice, two in the other order.
#[test]
fn strings_of_spans() {
    let mut random = Random::new(57);
    let mut met = Met::default();
    while met.total() < 30_000 {
        let records = random::sound_records(&mut random, 12);
        let asked = Asked::new(&Host::new(&records), random::question_of(&mut random, &records, 6));
        let mut strings = pieces(&asked.defined).strings;
        let (at, other) = (random.index(strings.len()), random.index(strings.len()));
        match random.below(3) {
            0 => drop(strings.remove(at)),
            1 => strings.insert(at, strings[other].clone()),
            _ => strings.swap(at, other),
        }
        let answer = strings.concat();
        let checked = asked.check(&answer, 0);
        assert_eq!(checked.is_ok(), answer == asked.defined);
        met.add(&asked.question, &checked);
    }
    met.exactly(6, 500, &[0, 15, 16, 17, 18]);
}

/// The answer with one or two changes of what its trace shows, and now and then of its letters, its count or its end.
fn edited(random: &mut Random, traced: &Traced) -> Vec<u8> {
    let mut versions = traced.versions.clone();
    for _ in 0..1 + random.index(2) {
        edit(random, &mut versions);
    }
    let way = way(&traced.asked.question);
    let mut records = records_of(way, &versions);
    if random.once_in(16) {
        edit_letter(random, &mut records);
    }
    let count = any_count(random, records.len());
    let extra: &[u8] = if random.once_in(16) { b"E" } else { b"" };
    [&traced.proof, &trace_with_count(trace_letter(way), count, &records)[..], extra].concat()
}

/// Answers with a trace, of which every record is whole, and positions and count follow the change.
fn edited_traces(seed: u64, direction: u8, rows: &[usize]) {
    let mut random = Random::new(seed);
    let mut met = Met::default();
    for _ in 0..3_000 {
        let traced = any_traced(&mut random, direction, 12);
        for _ in 0..20 {
            let answer = edited(&mut random, &traced);
            let checked = traced.asked.check(&answer, WORK);
            assert_eq!(checked.is_ok(), answer == traced.asked.defined);
            met.add(&traced.asked.question, &checked);
        }
    }
    met.exactly(direction.into(), 100, rows);
}

#[test]
fn edited_traces_backward() {
    edited_traces(53, 1, &[0, 12, 15, 16, 18, 19, 20, 21, 22, 23, 24]);
    edited_traces(55, 4, &[0, 12, 15, 16, 18, 19, 20, 21, 22, 23, 24]);
}

#[test]
fn edited_traces_forward() {
    edited_traces(54, 2, &[0, 12, 15, 16, 18, 19, 20, 21, 23, 24]);
    edited_traces(56, 5, &[0, 12, 15, 16, 18, 19, 20, 21, 23, 24]);
}
