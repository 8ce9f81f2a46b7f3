//! Records to offer to a recorder: the next ones of a log, mostly, and such as meet each row.

use crate::log::{births, write, Record};
use crate::random::{near, Random};

/// What the offers of one list have in common.
#[derive(Clone, Copy, Debug)]
pub struct Offers {
    /// A birth is one record in so many, once two entities are born.
    births: u64,
    /// Flows lead from or to one of the first so many entities; any if 0.
    programs: usize,
    /// A fault is one offer in so many.
    faults: u64,
    /// Entity numbers and times lie far apart.
    far: bool,
}

impl Offers {
    pub fn any(random: &mut Random) -> Self {
        Offers {
            births: [1, 2, 3, 5, 20][random.index(5)],
            programs: [0, 0, 1, 2][random.index(4)],
            faults: [2, 3, 8, 30][random.index(4)],
            far: random.once_in(4),
        }
    }

    /// What is offered after these records were taken.
    pub fn next(&self, random: &mut Random, taken: &[Record]) -> Vec<u8> {
        let record = self.sound(random, taken);
        if !random.once_in(self.faults) {
            return write(&[record]);
        }
        match random.below(8) {
            0 => Vec::new(),
            1 => damaged(random, record),
            2 | 3 => {
                let other = changed(random, taken, record);
                damaged(random, other)
            }
            _ => write(&[changed(random, taken, record)]),
        }
    }

    /// A record that may follow these, unless no number is left.
    fn sound(&self, random: &mut Random, taken: &[Record]) -> Record {
        let born: Vec<u32> = births(taken).collect();
        let gap = |random: &mut Random| match random.below(8) {
            0 if self.far => random.number() >> 8,
            1 => random.below(300),
            2 => random.below(4),
            _ => 0,
        };
        let time = match taken.last() {
            None if random.once_in(2) => 0,
            None => gap(random),
            Some(last) => last.time().saturating_add(1).saturating_add(gap(random)),
        };
        if born.len() < 2 || random.once_in(self.births) {
            let least = born.last().map_or(0, |last| last.saturating_add(1));
            let entity = least.saturating_add(gap(random).min(u64::from(u32::MAX) / 8) as u32);
            return Record::Birth { entity, time };
        }
        let first = if self.programs == 0 { random.index(born.len()) } else { random.index(self.programs.min(born.len())) };
        let second = random.other(first, born.len());
        let (source, destination) = if random.once_in(2) { (first, second) } else { (second, first) };
        let kind = if random.once_in(4) { 0 } else { random.byte() };
        Record::Flow { source: born[source], destination: born[destination], kind, time }
    }
}

/// Another record, with numbers at or near those of the records taken.
fn changed(random: &mut Random, taken: &[Record], record: Record) -> Record {
    let born: Vec<u32> = births(taken).collect();
    let member = if born.is_empty() { 0 } else { random.pick(&born) };
    let other = near(random, u64::from(member)) as u32;
    let (record_time, last) = (record.time(), taken.last().map_or(0, Record::time));
    match random.below(8) {
        0 | 1 => {
            let early = last - random.below(last.min(3) + 1);
            with_time(record, early)
        }
        2 => Record::Birth { entity: other, time: record_time },
        3 => Record::Flow { source: other, destination: member, kind: random.byte(), time: record_time },
        4 => Record::Flow { source: member, destination: other, kind: random.byte(), time: record_time },
        5 => Record::Flow { source: member, destination: member, kind: random.byte(), time: record_time },
        6 => Record::Flow { source: other, destination: other, kind: random.byte(), time: near(random, last) },
        _ if random.once_in(8) => with_time(record, near(random, record_time)),
        _ => record,
    }
}

fn with_time(record: Record, time: u64) -> Record {
    match record {
        Record::Birth { entity, .. } => Record::Birth { entity, time },
        Record::Flow { source, destination, kind, .. } => Record::Flow { source, destination, kind, time },
    }
}

/// A record's bytes cut, with others after them, or with another command; or any bytes.
fn damaged(random: &mut Random, record: Record) -> Vec<u8> {
    let mut bytes = write(&[record]);
    let extra = 1 + random.index(20);
    match random.below(6) {
        0 | 1 => bytes.truncate(random.index(bytes.len())),
        2 | 3 => bytes.extend(random.bytes(extra)),
        4 => bytes[0] = [0, 1, 2, 3, 255, random.byte()][random.index(6)],
        _ => bytes = random.bytes(extra),
    }
    bytes
}
