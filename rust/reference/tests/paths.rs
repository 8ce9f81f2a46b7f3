//! Random small sound logs against definitions followed by recursion and search.

mod common;

use common::oracle::Oracle;
use common::*;
use reference::host::Host;
use reference::log::write;
use reference::random::{damaged_answer, known_question, sound_records, Random};
use reference::sample::{questions, spans};
use reference::{Part, BETWEEN};

/// Every question that the log can tell apart: defined answer, verdict and records.
#[test]
fn all_questions_of_small_logs() {
    let mut random = Random::new(4);
    let mut verdicts = [[0; 5]; BETWEEN as usize];
    for _ in 0..250 {
        let sound = sound_records(&mut random, 11);
        let log = write(&sound);
        let oracle = Oracle::new(&log);
        let commitment = commit(&log);
        assert_eq!(commitment, oracle.commitment());
        for q in questions(&sound) {
            let bytes = answer(q, &log);
            assert_eq!(bytes, oracle.answer(&q), "{q:?}");
            let (verdict, time, count) = oracle.verdict(&q);
            let work = 128 * count as usize;
            assert_eq!(check_with(q, &commitment, &bytes, work), accepted(verdict, time, count));
            if count > 0 {
                assert_eq!(check_with(q, &commitment, &bytes, work - 1), refused(12, 0));
            }
            let part = records(q, &commitment, &bytes);
            if count == 0 {
                assert_eq!(part, Part::default());
            } else {
                assert_eq!((part.start + part.length) as usize, bytes.len());
                let header = part.start as usize - 5;
                assert_eq!(bytes[header], if q.direction % 3 == 1 { b'B' } else { b'F' });
            }
            verdicts[q.direction as usize][verdict as usize] += 1;
        }
    }
    for (direction, seen) in verdicts.iter().enumerate() {
        let stop = if direction < 3 { 2 } else { 4 };
        assert!([1, 3, stop].into_iter().all(|verdict| seen[verdict] > 1000), "{direction}: {seen:?}");
        assert_eq!(seen[6 - stop], 0, "{direction}: {seen:?}");
    }
}

/// Every span that the log can tell apart: defined answer, list and number, and the output that they need.
#[test]
fn all_spans_of_small_logs() {
    let mut random = Random::new(14);
    let mut numbers = [0; 6];
    let mut unknown = 0;
    for _ in 0..60 {
        let sound = sound_records(&mut random, 9);
        let log = write(&sound);
        let oracle = Oracle::new(&log);
        let host = Host::new(&sound);
        let commitment = commit(&log);
        for q in spans(&sound) {
            let bytes = answer(q, &log);
            assert_eq!(bytes, oracle.answer(&q), "{q:?}");
            let (verdict, _, count) = oracle.verdict(&q);
            let list: Vec<u8> = oracle.list(&q).iter().flat_map(|version| entry(version.0, version.1)).collect();
            assert_eq!(list_with(q, &commitment, &bytes, 0, list.len()), (accepted(verdict, 0, count), list.clone()), "{q:?}");
            let names = host.versions_between(&q);
            assert_eq!((names.is_some(), reference::list(&names.unwrap_or_default())), (verdict == 5, list.clone()));
            if !list.is_empty() {
                assert_eq!(list_with(q, &commitment, &bytes, 0, list.len() - 1).0, refused(13, 0));
            }
            assert_eq!(records(q, &commitment, &bytes), Part::default());
            match verdict {
                5 => numbers[5.min(count as usize)] += 1,
                _ => unknown += 1,
            }
        }
    }
    assert!(numbers.iter().all(|times| *times > 100) && unknown > 1000, "{numbers:?} {unknown}");
}

/// An answer to another question, or of another log, is refused or is the defined one.
#[test]
fn answers_do_not_pass_for_other_questions() {
    let mut random = Random::new(5);
    let (mut same, mut different) = (0, 0);
    for _ in 0..2000 {
        let records = sound_records(&mut random, 10);
        let log = write(&records);
        let commitment = commit(&log);
        let asked = known_question(&mut random, &records);
        let other = known_question(&mut random, &records);
        let bytes = answer(other, &log);
        let checked = check(asked, &commitment, &bytes);
        assert_eq!(checked.number == 0, bytes == answer(asked, &log));
        if checked.number == 0 {
            same += 1;
        } else {
            different += 1;
        }
        let longer = write(&sound_records(&mut random, 10));
        if longer != log {
            assert_eq!(check(asked, &commit(&longer), &answer(asked, &log)), refused(17, 0));
        }
    }
    assert!(same > 50 && different > 500);
}

/// Every cut and extension, and every byte altered in `values` ways, is refused.
fn damage_all(log: &[u8], q: reference::Question, values: impl Fn(u8, usize) -> Vec<u8>) {
    let commitment = commit(log);
    let good = answer(q, log);
    assert_eq!(check(q, &commitment, &good).number, 0);
    for length in 0..good.len() {
        assert_eq!(check(q, &commitment, &good[..length]).number, 15);
    }
    for extra in 0..=255 {
        let longer = [&good[..], &[extra]].concat();
        assert_eq!(check(q, &commitment, &longer), refused(18, good.len()));
        let longer = [&good[..], &[extra; 22]].concat();
        assert_eq!(check(q, &commitment, &longer), refused(18, good.len()));
    }
    let mut bytes = good.clone();
    for place in 0..good.len() {
        for value in values(good[place], place) {
            bytes[place] = value;
            let checked = check_with(q, &commitment, &bytes, 128 * 12);
            assert!(checked.number >= 12, "{q:?}: byte {place} may be {value}");
            assert!(checked.position <= good.len() as u64);
        }
        assert_eq!(records(q, &commitment, &bytes), Part::default());
        bytes[place] = good[place];
    }
}

#[test]
fn damaged_answers_of_log_k() {
    let all = |good: u8, _: usize| (0..=255).filter(|&value| value != good).collect();
    let before = [ask(1, 2, 35), ask(2, 1, 39), ask(2, 2, 20), ask(0, 2, 19), ask(1, 3, 9), ask(0, 1, 12)];
    let after = [ask(4, 2, 21), ask(5, 2, 21), ask(5, 2, 20), ask(3, 2, 31), ask(4, 3, 9), ask(3, 1, 12)];
    let spans = [between(1, 10, 40), between(2, 21, 30), between(2, 21, 29), between(2, 31, 99), between(3, 0, 99)];
    for q in before.into_iter().chain(after).chain(spans) {
        damage_all(&log_k(), q, all);
    }
}

#[test]
fn damaged_answers_of_random_logs() {
    let mut random = Random::new(6);
    for round in 0..150 {
        let records = sound_records(&mut random, 9);
        let q = known_question(&mut random, &records);
        let bits = move |good: u8, place: usize| vec![good ^ 1 << ((place + round) % 8), !good];
        damage_all(&write(&records), q, bits);
    }
}

#[test]
fn any_other_bytes_are_refused() {
    let mut random = Random::new(7);
    let mut seen = [0; 25];
    for _ in 0..600 {
        let records = sound_records(&mut random, 12);
        let log = write(&records);
        let commitment = commit(&log);
        let q = known_question(&mut random, &records);
        let good = answer(q, &log);
        for _ in 0..40 {
            let bytes = damaged_answer(&mut random, &good);
            assert_ne!(bytes, good);
            let checked = check(q, &commitment, &bytes);
            assert_ne!(checked.number, 0, "{q:?}");
            seen[checked.number as usize] += 1;
        }
    }
    for number in [15, 16, 17, 18] {
        assert!(seen[number] > 20, "row {number} seen {} times", seen[number]);
    }
}
