//! The exported check of honest answers, against the Rust version: every question, every size of work area, the most records.

mod common;

use common::*;
use reference::host::Host;
use reference::log::Record;
use reference::random::{self, Random};
use reference::sample::{births, in_turn, log_k, one_source, questions, spans};
use reference::{Question, Verdict, BETWEEN, DIRECTIONS};
use viewer::plain;

const MOST: usize = 65_535;

/// The defined answer's check with exactly enough work area, with more, and with one byte too few; gives the verdict.
fn every_size(asked: &Asked, met: &mut Met) -> Verdict {
    let verdict = asked.check(&asked.defined, 1 << 14).expect("the defined answer is accepted");
    let records = match verdict {
        Verdict::Found { count, .. } => count as usize,
        _ => 0,
    };
    for work in [128 * records, 128 * records + 1] {
        let checked = asked.check(&asked.defined, work);
        assert_eq!(checked, Ok(verdict.clone()));
        met.add(&asked.question, &checked);
    }
    if records > 0 {
        let short = asked.check(&asked.defined, 128 * records - 1);
        assert_eq!(short, refused(12, 0));
        met.add(&asked.question, &short);
    }
    verdict
}

/// Every question about random logs.
fn all_questions(seed: u64, logs: usize, most: usize) {
    let mut met = Met::default();
    let mut given = Given::default();
    for records in sound_logs(seed, logs, most) {
        let host = Host::new(&records);
        for question in questions(&records) {
            given.add(&question, &every_size(&Asked::new(&host, question), &mut met));
        }
    }
    for (direction, rows) in [(0, &[0][..]), (1, &[0, 12]), (2, &[0, 12]), (3, &[0]), (4, &[0, 12]), (5, &[0, 12])] {
        met.exactly(direction, 2_000, rows);
    }
    given.each(0..BETWEEN, 700);
}

/// Every span of random logs: the list is that of the log's versions in it.
#[test]
fn all_spans_of_tiny_logs() {
    let mut met = Met::default();
    let mut given = Given::default();
    for records in sound_logs(44, 60, 7) {
        let host = Host::new(&records);
        for question in spans(&records) {
            let verdict = every_size(&Asked::new(&host, question), &mut met);
            let due = host.versions_between(&question).map_or(Verdict::NoEntity, Verdict::Listed);
            assert_eq!(verdict, due, "{question:?}");
            given.add(&question, &verdict);
        }
    }
    met.exactly(BETWEEN.into(), 2_000, &[0]);
    given.each(BETWEEN..DIRECTIONS, 2_000);
}

#[test]
fn all_questions_of_tiny_logs() {
    all_questions(41, 150, 8);
}

#[test]
fn all_questions_of_small_logs() {
    all_questions(42, 8, 40);
}

/// An answer to another question, or to another log's, is refused unless it is the defined one.
#[test]
fn answers_to_other_questions() {
    let mut random = Random::new(43);
    let mut met = Met::default();
    for _ in 0..30_000 {
        let records = random::sound_records(&mut random, 10);
        let host = Host::new(&records);
        let mut known = || random::known_question(&mut random, &records);
        let (asked, other) = (Asked::new(&host, known()), Asked::new(&host, known()));
        let checked = asked.check(&other.defined, 1 << 12);
        assert_eq!(checked.is_ok(), asked.defined == other.defined);
        met.add(&asked.question, &checked);
        let foreign = Host::new(&random::sound_records(&mut random, 10)).commitment();
        let checked = check(&asked.question, &foreign, &asked.defined, 1 << 12);
        assert_eq!(checked.is_ok(), foreign == asked.commitment);
    }
    for direction in 0..DIRECTIONS {
        met.exactly(direction.into(), 100, &[0, 15, 16, 17, 18]);
    }
}

/// A plain number as a direction: 1 and 4 have this answer, since at a version's own time both relations have one; a number above 6 is row 11.
#[test]
fn every_number_as_a_direction() {
    let asked = Asked::new(&Host::new(&log_k()), ask(1, 2, 30));
    for direction in 0..=255 {
        let question = Question { direction, until: 30, ..asked.question };
        let number = check(&question, &asked.commitment, &asked.defined, 384).err().map_or(0, |refusal| refusal.number);
        assert_eq!((direction == 1 || direction == 4, direction > 6), (number == 0, number == 11));
    }
}

/// Outside direction 6 the later time has no effect, also where it stands first, and the output stays as it was.
#[test]
fn until_and_output_outside_direction_6() {
    let host = Host::new(&log_k());
    for direction in 0..6 {
        let asked = Asked::new(&host, ask(direction, 2, 25));
        let call = |until, out: &mut [u8]| {
            with_work(384, |work| plain::check(direction, 2, 25, until, &asked.commitment, &asked.defined, work, out))
        };
        let checked = call(0, &mut []);
        assert_eq!(checked.verdict, reference::FOUND);
        let log = reference::log::write(&log_k());
        for until in [0, 24, 25, u64::MAX] {
            assert_eq!(with_output(24, |out| (call(until, out), 0)).0, checked);
            let mut given = vec![0; asked.defined.len()];
            let written = plain::answer(direction, 2, 25, until, &log, &mut [0; 512], &mut given);
            assert_eq!((written.number, given), (0, asked.defined.clone()));
            let part = |until| plain::records(direction, 2, 25, until, &asked.commitment, &asked.defined, &mut [0; 384]);
            assert_eq!(part(until), part(0));
        }
    }
}

/// Any direction with any length of commitment.
#[test]
fn directions_and_commitments() {
    let asked = Asked::new(&Host::new(&log_k()), ask(1, 2, 30));
    let mut met = Met::default();
    for direction in 0..=255 {
        for length in 0..=70 {
            let question = Question { direction, until: 30, ..asked.question };
            let mut commitment = asked.commitment.to_vec();
            commitment.resize(length, 0);
            let checked = check(&question, &commitment, &asked.defined, 384);
            met.add(&question, &checked);
            assert_eq!(checked.is_ok(), (direction == 1 || direction == 4) && length == 32);
        }
    }
    for (direction, row) in [18, 0, 16, 18, 0, 16, 18].into_iter().enumerate() {
        met.exactly(direction, 1, &[14, row]);
    }
    met.exactly(UNKNOWN, 249 * 71, &[11]);
}

/// A full history of the most records: accepted with that many records, refused with one byte of work area less, with a kind altered in
/// the middle, with the last byte cut off and with one more.
fn full_history(records: &[Record], question: Question, count: usize) {
    let asked = Asked::new(&Host::new(records), question);
    let work = 128 * count;
    let answer = asked.defined.clone();
    let Ok(Verdict::Found { count: counted, .. }) = asked.check(&answer, work) else { panic!("it is accepted") };
    assert_eq!(counted, count as u64);
    assert_eq!(asked.check(&answer, work - 1), refused(12, 0));
    assert_eq!(asked.check(&[&answer[..], &[0]].concat(), work), refused(18, answer.len()));
    let number = |answer: &[u8]| asked.check(answer, work).unwrap_err().number;
    assert_eq!(number(&answer[..answer.len() - 1]), 15);
    let mut altered = answer.clone();
    let middle = answer.len() - 22 * (count / 2) - 22 + 13;
    altered[middle] ^= 1;
    assert_eq!(number(&altered), 24);
}

#[test]
fn the_most_records_backward() {
    full_history(&one_source(MOST), ask(1, 1, u64::MAX), MOST);
    full_history(&in_turn(MOST), ask(1, 1, u64::MAX), MOST);
    full_history(&in_turn(MOST), ask(4, 1, MOST as u64 - 1), MOST);
}

#[test]
fn the_most_records_forward() {
    full_history(&in_turn(MOST), ask(2, 0, 0), MOST - 1);
    full_history(&in_turn(MOST), ask(5, 0, 0), MOST - 1);
    let asked = Asked::new(&Host::new(&births(MOST)), ask(2, 40_000, u64::MAX));
    assert_eq!(asked.check(&asked.defined, 128), found(40_000, 1));
}

/// The most versions that a log's list can have: accepted, and refused with one of them left out, with the last byte cut off and one more.
#[test]
fn the_most_versions_of_a_span() {
    let asked = Asked::new(&Host::new(&one_source(MOST)), between(1, 0, u64::MAX));
    let answer = asked.defined.clone();
    assert!(matches!(asked.check(&answer, 0), Ok(Verdict::Listed(names)) if names.len() == MOST - 1));
    assert_eq!(asked.check(&[&answer[..], &[0]].concat(), 0), refused(18, answer.len()));
    assert_eq!(asked.check(&answer[..answer.len() - 1], 0).unwrap_err().number, 15);
    // R, P and G, then 16 N down to the first two L
    let second = 65 + 97 + 57 + 16 * 97 + 77;
    assert_eq!(answer[second], b'L');
    let without = [&answer[..second], &answer[second + 77..]].concat();
    assert_eq!(asked.check(&without, 0), refused(16, second));
}

#[test]
fn one_source_of_the_most_flows() {
    let asked = Asked::new(&Host::new(&one_source(MOST)), ask(2, 0, 0));
    assert_eq!(asked.check(&asked.defined, 128 * (MOST - 1)), found(0, MOST as u64 - 1));
    assert_eq!(asked.check(&asked.defined, 128 * (MOST - 1) - 1), refused(12, 0));
}
