//! Logs of the shapes that the calls are measured on, and questions about them.

use reference::host::Host;
use reference::log::{read, write, Record};
use reference::random::Random;
use reference::sample::{in_turn, one_source};
use reference::sha256::Digest;
use reference::{Question, Way};

use crate::table::DIRECTIONS;

/// A sound log of that many records: births and flows at random, one birth in three, flows among a quarter as many entities, one source of
/// every flow, or two entities that feed each other in turn; births alone, pairs of which one feeds the other once, or a yard.
pub fn log(shape: &str, records: usize) -> Vec<u8> {
    let mut random = Random::new(records as u64);
    let birth = |n: usize| Record::Birth { entity: 3 * n as u32, time: n as u64 };
    let made: Vec<Record> = match shape {
        "busy" => one_source(records),
        "turns" => in_turn(records),
        "births" => (0..records).map(birth).collect(),
        "pairs" => pairs(records),
        "yard" => yard(records, &mut random),
        "flows" => {
            let born = (records / 4).max(2);
            let flow = |n: usize, random: &mut Random| {
                let source = random.index(born);
                let destination = random.other(source, born);
                Record::Flow { source: 3 * source as u32, destination: 3 * destination as u32, kind: random.byte(), time: n as u64 }
            };
            (0..records).map(|n| if n < born { birth(n) } else { flow(n, &mut random) }).collect()
        }
        _ => mixed(records, &mut random),
    };
    write(&made)
}

/// Births of two thirds, then flows from one entity to the next, each in one flow.
fn pairs(records: usize) -> Vec<Record> {
    let born = records - records / 3;
    let flow = |n: usize| {
        let source = 2 * (n - born) as u32;
        Record::Flow { source, destination: source + 1, kind: 7, time: n as u64 }
    };
    let birth = |n: usize| Record::Birth { entity: n as u32, time: n as u64 };
    (0..born).map(birth).chain((born..records).map(flow)).collect()
}

/// Programs, a tenth of the entities, that read and write files at random; an entity in five records.
fn yard(records: usize, random: &mut Random) -> Vec<Record> {
    let born = (records / 5).max(10);
    let programs = born / 10;
    let birth = |n: usize| Record::Birth { entity: n as u32, time: n as u64 };
    let mut flow = |n: usize| {
        let (program, file) = (random.index(programs) as u32, (programs + random.index(born - programs)) as u32);
        let (source, destination) = if random.once_in(2) { (program, file) } else { (file, program) };
        Record::Flow { source, destination, kind: random.byte(), time: n as u64 }
    };
    (0..records).map(|n| if n < born { birth(n) } else { flow(n) }).collect()
}

/// Births and flows at random; the share of births does not depend on the number of records.
fn mixed(records: usize, random: &mut Random) -> Vec<Record> {
    let mut born: Vec<u32> = Vec::new();
    let mut record = |n: usize| {
        let time = n as u64;
        if born.len() < 2 || random.once_in(3) {
            let entity = born.last().map_or(0, |last| last + 1) + random.below(8) as u32;
            born.push(entity);
            return Record::Birth { entity, time };
        }
        let source = random.index(born.len());
        let destination = random.other(source, born.len());
        Record::Flow { source: born[source], destination: born[destination], kind: random.byte(), time }
    };
    (0..records).map(&mut record).collect()
}

/// A question about a log, with the log's commitment and the answer.
pub struct Asked {
    pub question: Question,
    pub commitment: Digest,
    pub answer: Vec<u8>,
}

/// The entity and time of the version that a record makes.
fn version(record: &Record) -> (u32, u64) {
    let (Record::Birth { entity, time } | Record::Flow { destination: entity, time, .. }) = *record;
    (entity, time)
}

/// Forward the question is for all that came of the log's first version, else for its last version, or all that led to it; at the version's
/// own time, so that either relation finds it. In the shapes busy and turns that is the full history: every record, or every one but a birth.
fn of_one(records: &[Record], direction: u8) -> Question {
    let ask = |(entity, time)| Question::new(direction, entity, time);
    let (first, last) = (ask(version(&records[0])), ask(version(&records[records.len() - 1])));
    if first.way() == Some(Way::Forward) { first } else { last }
}

/// Of the last version's entity: all versions, the middle one, or none, which in the shape turns is a span between two of them.
fn of_span(records: &[Record], span: &str) -> Question {
    let entity = version(&records[records.len() - 1]).0;
    let times: Vec<u64> = records.iter().map(version).filter(|version| version.0 == entity).map(|version| version.1).collect();
    let middle = times[times.len() / 2];
    match span {
        "between-all" => Question::between(entity, 0, u64::MAX),
        "between-one" => Question::between(entity, middle, middle),
        _ => Question::between(entity, middle + 1, middle + 1),
    }
}

impl Asked {
    /// A question of a direction, or for a span, by its word in the table.
    pub fn new(log: &[u8], asked: &str) -> Self {
        let records = read(log).expect("a sound log");
        let question = match DIRECTIONS.iter().position(|direction| *direction == asked) {
            Some(direction) => of_one(&records, direction as u8),
            None => of_span(&records, asked),
        };
        let host = Host::new(&records);
        Asked { question, commitment: host.commitment(), answer: host.answer(&question) }
    }
}

#[cfg(test)]
mod tests {
    use super::*;
    use crate::table::SPANS;
    use reference::forge::pieces;

    /// The versions of a span, and the N strings of its answer.
    fn spans(shape: &str, records: usize) -> [(usize, usize); 3] {
        SPANS.map(|span| {
            let log = log(shape, records);
            let Asked { question, answer, .. } = Asked::new(&log, span);
            let listed = Host::new(&read(&log).expect("a sound log")).versions_between(&question).expect("an entity");
            (listed.len(), pieces(&answer).strings.iter().filter(|string| string[0] == b'N').count())
        })
    }

    #[test]
    fn spans_list_all_versions_or_one_or_none() {
        assert_eq!(spans("busy", 40)[..2], [(39, 38), (1, 6)]);
        assert_eq!(spans("turns", 40), [(20, 19), (1, 5), (0, 5)]);
    }
}
