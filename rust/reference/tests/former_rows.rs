//! Row 10, which document 02's A10 took out: reading a log as it was, with row 10 behind row 9, gives what reading without it gives.

mod common;

use common::*;
use reference::log::Record;
use reference::random::{nearly_sound_log, sound_log, Random};
use std::collections::BTreeMap;

/// The times of each entity's latest version.
type Latest = BTreeMap<u32, u64>;

/// Row 10: flow no later than an end's latest version.
fn meets_row_10(latest: &Latest, record: &Record) -> bool {
    match *record {
        Record::Birth { .. } => false,
        Record::Flow { source, destination, time, .. } => [source, destination].iter().any(|end| time <= latest[end]),
    }
}

/// A log's records and the row that it meets, if any, with row 10 behind row 9.
fn read_with_row_10(log: &[u8]) -> (u64, u64) {
    let mut latest = Latest::new();
    let mut position = 0;
    let mut reader = match reference::log::Reader::new(log) {
        Ok(reader) => reader,
        Err(refusal) => return (refusal.number, refusal.position),
    };
    while !reader.at_end() {
        let record = match reader.next_record() {
            Ok(record) => record,
            Err(refusal) => return (refusal.number, refusal.position),
        };
        if meets_row_10(&latest, &record) {
            return (10, position);
        }
        match record {
            Record::Birth { entity, time } => latest.insert(entity, time),
            Record::Flow { destination, time, .. } => latest.insert(destination, time),
        };
        position += reference::log::write(&[record]).len() as u64;
    }
    (0, 0)
}

#[test]
fn reading_with_row_10_gives_the_same() {
    let mut random = Random::new(10);
    let (mut sound, mut unsound) = (0, 0);
    for round in 0..40_000 {
        let log = match round % 4 {
            0 => sound_log(&mut random, 40),
            1 => damaged(&mut random),
            _ => nearly_sound_log(&mut random, 40).log,
        };
        let read = reference::log(&log);
        assert_eq!(read_with_row_10(&log), (read.number, read.position));
        *(if read.number == 0 { &mut sound } else { &mut unsound }) += 1;
    }
    assert!(sound > 10_000 && unsound > 10_000, "{sound} {unsound}");
}

/// A sound log with some bits of it turned.
fn damaged(random: &mut Random) -> Vec<u8> {
    let mut log = sound_log(random, 40);
    for _ in 0..1 + random.below(3) {
        let at = random.index(log.len());
        log[at] ^= 1 << random.below(8);
    }
    log
}

/// The row as it was turns something away: a flow at or before the time of either end's latest version, which row 5 turns away first.
#[test]
fn row_10_is_met_where_row_5_is() {
    let latest = Latest::from([(1, 10), (2, 20)]);
    let at = |source, destination, time| meets_row_10(&latest, &Record::Flow { source, destination, kind: 7, time });
    for (source, destination) in [(1, 2), (2, 1)] {
        assert!(at(source, destination, 10) && at(source, destination, 19) && at(source, destination, 20));
        assert!(!at(source, destination, 21));
        let log = [birth(1, 10), birth(2, 20), flow(source, destination, 7, 20)].concat();
        assert_eq!((reference::log(&log).number, reference::log(&log).position), (5, 26));
    }
}
