//! The greatest logs: 65,535 records, and one more.

mod common;

use common::*;
use reference::log::{write, Record};
use reference::random::{overlong_log, records_of_length, Random};
use reference::sample::{births, in_turn, one_source};
use reference::host::Host;
use reference::{Question, Written};

const MOST: usize = 65_535;

fn round_trip(log: &[u8], q: Question, count: u64) {
    let (written, bytes) = answer_with(q, log, 128 * MOST, 1_500_000);
    assert_eq!(written.number, 0);
    let (_, commitment) = commit_with(log, 128 * MOST, 32);
    let checked = check_with(q, &commitment, &bytes, 128 * MOST);
    assert_eq!((checked.number, checked.verdict, checked.count), (0, 3, count));
}

#[test]
fn record_65536() {
    for records in [births(MOST), one_source(MOST), in_turn(MOST)] {
        let log = write(&records);
        assert_eq!(reference::log(&log), Written { number: 0, position: 0, length: MOST as u64 });
        for extra in [vec![0], birth(u32::MAX, u64::MAX), flow(0, 1, 0, u64::MAX), vec![1]] {
            let longer = [&log[..], &extra].concat();
            assert_eq!(reference::log(&longer), Written { number: 2, position: log.len() as u64, length: 0 });
        }
    }
    let fault = overlong_log(&mut Random::new(11));
    let result = reference::log(&fault.log);
    assert_eq!((result.number, result.position), (fault.number, fault.position));
}

#[test]
fn busy_source() {
    let log = write(&one_source(MOST));
    round_trip(&log, ask(2, 0, 0), MOST as u64 - 1);
    round_trip(&log, ask(1, 1, u64::MAX), MOST as u64);
    round_trip(&log, ask(4, 1, MOST as u64 - 1), MOST as u64);
    round_trip(&log, ask(5, 0, 0), MOST as u64 - 1);
}

#[test]
fn alternating() {
    let log = write(&in_turn(MOST));
    round_trip(&log, ask(2, 0, 0), MOST as u64 - 1);
    round_trip(&log, ask(1, 1, u64::MAX), MOST as u64);
    round_trip(&log, ask(4, 1, MOST as u64 - 1), MOST as u64);
    round_trip(&log, ask(5, 0, 0), MOST as u64 - 1);
}

/// All versions of an entity that has as many as one can have, all but the first and the last, one, and none.
#[test]
fn long_lists() {
    let records = one_source(MOST);
    let (log, host, last) = (write(&records), Host::new(&records), MOST as u64 - 1);
    for (from, until, number) in
        [(0, u64::MAX, MOST - 1), (1, last, MOST - 1), (2, last - 1, MOST - 3), (30_000, 30_000, 1), (last + 1, u64::MAX, 0)]
    {
        let q = between(1, from, until);
        let (written, bytes) = answer_with(q, &log, 128 * MOST, 174 * MOST);
        assert_eq!(written.number, 0);
        let list: Vec<u8> = (from.max(1)..=until.min(last)).flat_map(|time| entry(1, time)).collect();
        let given = list_with(q, &host.commitment(), &bytes, 0, 12 * number);
        assert_eq!(given.0, accepted(5, 0, number as u64));
        assert!(given.1 == list && reference::list(&host.versions_between(&q).expect("an entity")) == list);
    }
}

#[test]
fn many_entities() {
    let log = write(&births(MOST));
    round_trip(&log, ask(2, 40_000, u64::MAX), 1);
    let (outcome, _) = commit_with(&log, 128 * MOST, 32);
    assert_eq!(outcome.number, 0);
    assert_eq!(commit_with(&log, 128 * MOST - 1, 32).0.number, 12);
}

#[test]
fn random_large() {
    let records = records_of_length(&mut Random::new(12), MOST);
    assert_eq!(records.len(), MOST);
    let log = write(&records);
    let first = reference::host::Host::new(&records);
    let Record::Birth { entity, .. } = records[0] else { unreachable!() };
    for direction in 0..6 {
        let time = if direction < 3 { u64::MAX } else { 0 };
        let q = ask(direction, entity, time);
        let (_, bytes) = answer_with(q, &log, 128 * MOST, 1_500_000);
        assert_eq!(bytes, first.answer(&q));
        assert_eq!(check_with(q, &first.commitment(), &bytes, 128 * MOST).verdict, 3);
    }
}
