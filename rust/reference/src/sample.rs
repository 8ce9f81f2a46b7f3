//! Logs by hand, and every question about a log, for tests.

use crate::log::{self, Record};
use crate::question::{Question, BETWEEN};

pub fn birth(entity: u32, time: u64) -> Record {
    Record::Birth { entity, time }
}

pub fn flow(source: u32, destination: u32, kind: u8, time: u64) -> Record {
    Record::Flow { source, destination, kind, time }
}

/// Log K (section Log K).
pub fn log_k() -> Vec<Record> {
    vec![birth(1, 10), birth(2, 20), flow(1, 2, 7, 30), flow(2, 1, 8, 40)]
}

/// That many births, of 0 at 0 and on.
pub fn births(count: usize) -> Vec<Record> {
    (0..count).map(|n| birth(n as u32, n as u64)).collect()
}

/// Births of 0 and 1, then flows between them up to that many records; `source` gives each flow's, 0 or 1.
pub fn two_entities(count: usize, source: impl Fn(usize) -> u32) -> Vec<Record> {
    let flows = (2..count).map(|n| flow(source(n), 1 - source(n), n as u8, n as u64));
    births(2).into_iter().chain(flows).collect()
}

/// 0 feeds 1 in every flow.
pub fn one_source(count: usize) -> Vec<Record> {
    two_entities(count, |_| 0)
}

/// 0 and 1 feed each other in turn, 0 first.
pub fn in_turn(count: usize) -> Vec<Record> {
    two_entities(count, |n| n as u32 & 1)
}

/// Every question for one version that a log can tell apart: entities and times at, one before and one after those of the log, the least and
/// the greatest.
pub fn questions(records: &[Record]) -> Vec<Question> {
    let times = times(records);
    let mut questions = Vec::new();
    for entity in entities(records) {
        for &time in &times {
            questions.extend((0..BETWEEN).map(|direction| Question::new(direction, entity, time)));
        }
    }
    questions
}

/// Every question for all versions between two of these times, the later one not first.
pub fn spans(records: &[Record]) -> Vec<Question> {
    let times = times(records);
    let mut questions = Vec::new();
    for entity in entities(records) {
        for (place, &from) in times.iter().enumerate() {
            questions.extend(times[place..].iter().map(|&until| Question::between(entity, from, until)));
        }
    }
    questions
}

fn entities(records: &[Record]) -> Vec<u32> {
    near(log::births(records).map(u64::from), u64::from(u32::MAX)).into_iter().map(|entity| entity as u32).collect()
}

fn times(records: &[Record]) -> Vec<u64> {
    near(records.iter().map(Record::time), u64::MAX)
}

fn near(values: impl Iterator<Item = u64>, most: u64) -> Vec<u64> {
    let mut all: Vec<u64> = values
        .flat_map(|value| [value.saturating_sub(1), value, value.saturating_add(1)])
        .chain([0, most])
        .filter(|&value| value <= most)
        .collect();
    all.sort_unstable();
    all.dedup();
    all
}
