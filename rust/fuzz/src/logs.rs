//! Logs: sound ones of several shapes, then changed by records, fields and bytes.

use reference::listing::{MOST_BYTES, MOST_LISTED};
use reference::log::{self, read, write, Record};
use reference::random::{self, near, Random};
use reference::sample::{births, in_turn, log_k, one_source, two_entities};

/// A log, and the records of the sound one that it was made from (at least one), to ask about.
pub struct Log {
    pub records: Vec<Record>,
    pub bytes: Vec<u8>,
}

/// Any log: sound once in some times; else with one fault, or with some changes.
pub fn any(random: &mut Random) -> Log {
    if random.once_in(700) {
        return longest(random);
    }
    if random.once_in(60) {
        return near_the_listing_limits(random);
    }
    let records = sound(random);
    let bytes = match random.below(8) {
        0..3 => write(&records),
        3 | 4 => faulty(random, &records),
        5 => edit_bytes(random, &records),
        _ => edited(random, &records),
    };
    Log { records, bytes }
}

/// A sound log, mostly short.
pub fn sound(random: &mut Random) -> Vec<Record> {
    let most = if random.once_in(100) { 700 } else { [1, 3, 8, 8, 20, 70][random.index(6)] };
    let count = 1 + random.index(most);
    let sources = random.number();
    let mut records = match random.below(10) {
        0 => log_k(),
        1 => births(count),
        2 => one_source(count),
        3 => in_turn(count),
        4 => two_entities(count, |n| (sources >> (n % 64)) as u32 & 1),
        _ => random::sound_records(random, most),
    };
    if random.once_in(8) {
        move_to_the_end(&mut records);
    }
    records
}

/// All entities and times raised alike, so that the greatest are the greatest there are.
fn move_to_the_end(records: &mut [Record]) {
    let entities = u32::MAX - log::births(records).max().unwrap_or(0);
    let times = u64::MAX - records.last().map_or(0, Record::time);
    for record in records {
        match record {
            Record::Birth { entity, time } => (*entity, *time) = (*entity + entities, *time + times),
            Record::Flow { source, destination, time, .. } => {
                (*source, *destination, *time) = (*source + entities, *destination + entities, *time + times)
            }
        }
    }
}

/// The most records, and mostly what follows them: without it the calls take long.
fn longest(random: &mut Random) -> Log {
    let fault = random::overlong_log(random);
    let sound = fault.position as usize;
    let end = match random.below(12) {
        0 => sound,
        1..4 => sound + 1,
        _ => fault.log.len(),
    };
    Log { records: read(&fault.log[..sound]).expect("a sound log"), bytes: fault.log[..end].to_vec() }
}

/// About as many records or bytes as are listed. In so many bytes only a log that is refused tells whether they are too many.
fn near_the_listing_limits(random: &mut Random) -> Log {
    let count = MOST_LISTED - 1 + random.index(3);
    let records = [births, births, one_source, in_turn][random.index(4)](count);
    let mut bytes = write(&records);
    if random.once_in(2) {
        bytes = faulty(random, &records);
        bytes.resize(MOST_BYTES - 2 + random.index(5), random.byte() % 4);
    }
    Log { records, bytes }
}

/// One fault of a row that is drawn, if a record can have it.
fn faulty(random: &mut Random, records: &[Record]) -> Vec<u8> {
    let number = [1, 3, 4, 5, 6, 7, 8, 9][random.index(8)];
    random::log_with_fault(random, records, number).map_or_else(|| write(records), |fault| fault.log)
}

/// Some changes of records, then of bytes once in four.
fn edited(random: &mut Random, records: &[Record]) -> Vec<u8> {
    let mut records = records.to_vec();
    for _ in 0..1 + random.index(3) {
        edit(random, &mut records);
    }
    if random.once_in(4) {
        edit_bytes(random, &records)
    } else {
        write(&records)
    }
}

/// Two records swapped, one doubled, left out or altered, the last ones cut off, or another log's put in.
fn edit(random: &mut Random, records: &mut Vec<Record>) {
    let (at, other) = (random.index(records.len()), random.index(records.len()));
    match random.below(10) {
        0 => records.swap(at, other),
        1 => records.insert(at, records[other]),
        2 if records.len() > 1 => drop(records.remove(at)),
        3 => records.truncate(at + 1),
        4 => drop(records.splice(at.., sound(random))),
        5 => later(random, records),
        6 => records[at] = other_command(random, records[at]),
        _ => {
            let other = records[other];
            edit_field(random, &mut records[at], other);
        }
    }
}

/// More records, each with a time above the last: they may be sound.
fn later(random: &mut Random, records: &mut Vec<Record>) {
    for mut record in sound(random) {
        let last = records.last().map_or(0, Record::time);
        let (Record::Birth { time, .. } | Record::Flow { time, .. }) = &mut record;
        *time = last.saturating_add(1 + random.below(3));
        records.push(record);
    }
}

/// A birth for a flow or a flow for a birth, with the same operands.
fn other_command(random: &mut Random, record: Record) -> Record {
    match record {
        Record::Birth { entity, time } => {
            Record::Flow { source: entity, destination: random.below(4) as u32, kind: random.byte(), time }
        }
        Record::Flow { destination, time, .. } => Record::Birth { entity: destination, time },
    }
}

/// A field set to a value at or next to another record's, the least, the greatest or any; or a flow turned round.
fn edit_field(random: &mut Random, record: &mut Record, other: Record) {
    let (Record::Birth { entity, .. } | Record::Flow { source: entity, .. }) = other;
    let any_entity = near(random, u64::from(entity)) as u32;
    let any_time = near(random, other.time());
    match (record, random.below(5)) {
        (Record::Birth { entity, .. }, 0 | 1) => *entity = any_entity,
        (Record::Flow { source, .. }, 0) => *source = any_entity,
        (Record::Flow { destination, .. }, 1) => *destination = any_entity,
        (Record::Flow { kind, .. }, 2) => *kind = random.byte(),
        (Record::Flow { source, destination, .. }, 3) => std::mem::swap(source, destination),
        (Record::Birth { time, .. } | Record::Flow { time, .. }, _) => *time = any_time,
    }
}

/// The records' bytes with a command altered, or changed without regard to the records.
fn edit_bytes(random: &mut Random, records: &[Record]) -> Vec<u8> {
    let mut bytes = write(records);
    if random.once_in(2) {
        return random::damaged_answer(random, &bytes);
    }
    let command = write(&records[..random.index(records.len())]).len();
    bytes[command] = [0, 1, 2, 3, 255, random.byte()][random.index(6)];
    bytes
}
