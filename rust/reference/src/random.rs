//! Deterministic inputs for tests: sound logs, logs with one fault, questions,
//! damaged answers, and forged commitments with answers that fit them.

use crate::forge::{fits, records_of, trace_with_count};
use crate::graph::{incoming_digests, outgoing_digests, Dependency, Name, Version};
use crate::hash::H;
use crate::log::{births, write, Record, MOST_RECORDS};
use crate::question::{Asked, One, Question, Relation, Sought, Span, Way, BETWEEN, DIRECTIONS};
use crate::sha256::{sha256, Digest};
use crate::trace::{found_place, trace_letter};
use crate::tree::{leaf_string, Subtree, NODE};

/// A generator of numbers (SplitMix64).
#[derive(Clone)]
pub struct Random {
    state: u64,
}

impl Random {
    pub fn new(seed: u64) -> Self {
        Random { state: seed }
    }

    /// Any 64-bit number.
    pub fn number(&mut self) -> u64 {
        self.state = self.state.wrapping_add(0x9e37_79b9_7f4a_7c15);
        let mut z = self.state;
        z = (z ^ (z >> 30)).wrapping_mul(0xbf58_476d_1ce4_e5b9);
        z = (z ^ (z >> 27)).wrapping_mul(0x94d0_49bb_1331_11eb);
        z ^ (z >> 31)
    }

    /// A number below `limit`, which is above 0.
    pub fn below(&mut self, limit: u64) -> u64 {
        self.number() % limit
    }

    /// An index of a list of `length` elements.
    pub fn index(&mut self, length: usize) -> usize {
        self.below(length as u64) as usize
    }

    /// Another index than that one, of a list of `length` elements, which is above 1.
    pub fn other(&mut self, index: usize, length: usize) -> usize {
        (index + 1 + self.index(length - 1)) % length
    }

    /// An element of a list.
    pub fn pick<T: Copy>(&mut self, list: &[T]) -> T {
        list[self.index(list.len())]
    }

    /// True once in `times`.
    pub fn once_in(&mut self, times: u64) -> bool {
        self.below(times) == 0
    }

    pub fn byte(&mut self) -> u8 {
        self.number() as u8
    }

    pub fn bytes(&mut self, length: usize) -> Vec<u8> {
        (0..length).map(|_| self.byte()).collect()
    }

    fn digest(&mut self) -> Digest {
        sha256(&self.number().to_be_bytes())
    }
}

/// The records of a sound log of at least one and at most `most` records
/// (`most` from 1 to 65,535). Entity numbers and times lie close together or far apart,
/// and the least and greatest values occur.
pub fn sound_records(random: &mut Random, most: usize) -> Vec<Record> {
    let length = 1 + random.index(most);
    records_of_length(random, length)
}

/// As `sound_records`, with the number of records given. Only if the entity numbers
/// run out after one birth are there fewer.
pub fn records_of_length(random: &mut Random, length: usize) -> Vec<Record> {
    let births = 2 + random.below(1 + length as u64 / 2);
    let far = random.once_in(4);
    let busy = random.once_in(3);
    let mut born: Vec<u32> = Vec::new();
    let mut records: Vec<Record> = Vec::new();
    while records.len() < length {
        let left = (length - records.len()) as u64;
        let time = next_time(random, records.last().map(Record::time), left, far);
        let want = born.len() < 2 || ((born.len() as u64) < births && random.below(left + 1) < births);
        match next_entity(random, born.last().copied(), far).filter(|_| want) {
            Some(entity) => {
                born.push(entity);
                records.push(Record::Birth { entity, time });
            }
            None if born.len() < 2 => break,
            None => records.push(flow(random, &born, busy, time)),
        }
    }
    records
}

/// A sound log as bytes.
pub fn sound_log(random: &mut Random, most: usize) -> Vec<u8> {
    write(&sound_records(random, most))
}

/// A time above the last one that leaves room for `left` - 1 later records.
fn next_time(random: &mut Random, last: Option<u64>, left: u64, far: bool) -> u64 {
    let least = match last {
        None if random.once_in(2) => return 0,
        None => 0,
        Some(last) => last + 1,
    };
    let room = (u64::MAX - (left - 1)) - least;
    let gap = match random.below(8) {
        0 if far => random.number(),
        1 if far && left == 1 => room,
        2 => random.below(300),
        3 | 4 => random.below(4),
        _ => 0,
    };
    least + gap.min(room)
}

/// An entity number above the last one; none if there is none.
fn next_entity(random: &mut Random, last: Option<u32>, far: bool) -> Option<u32> {
    let least = match last {
        None => 0,
        Some(last) => last.checked_add(1)?,
    };
    let gap = match random.below(8) {
        0 if far => random.number() as u32,
        1 if far && last.is_some() && random.once_in(4) => u32::MAX,
        2 => random.below(300) as u32,
        3 | 4 => random.below(3) as u32,
        _ => 0,
    };
    Some(least + gap.min(u32::MAX - least))
}

/// A flow between two of the born entities; the first one feeds most if `busy`.
fn flow(random: &mut Random, born: &[u32], busy: bool, time: u64) -> Record {
    let source = if busy && !random.once_in(4) { 0 } else { random.index(born.len()) };
    let destination = random.other(source, born.len());
    let kind = if random.once_in(4) { 0 } else { random.byte() };
    Record::Flow { source: born[source], destination: born[destination], kind, time }
}

/// A log that meets a row of 1 to 9, and what the row returns.
#[derive(Clone, Debug)]
pub struct Fault {
    pub log: Vec<u8>,
    pub number: u64,
    pub position: u64,
}

/// A sound log with one fault, of the rows 1 and 3 to 9.
pub fn nearly_sound_log(random: &mut Random, most: usize) -> Fault {
    const ROWS: [u64; 8] = [1, 3, 4, 5, 6, 7, 8, 9];
    loop {
        let number = ROWS[random.index(ROWS.len())];
        let records = sound_records(random, most);
        if let Some(fault) = log_with_fault(random, &records, number) {
            return fault;
        }
    }
}

/// The records with one of them changed so that it meets the given row;
/// none if no change of the chosen record does.
pub fn log_with_fault(random: &mut Random, records: &[Record], number: u64) -> Option<Fault> {
    if number == 1 {
        return Some(Fault { log: Vec::new(), number, position: 0 });
    }
    let index = random.index(records.len());
    let mut log = write(&records[..index]);
    let position = log.len() as u64;
    let good = write(&records[index..index + 1]);
    match number {
        3 => {
            let command = random.byte();
            if command == 1 || command == 2 {
                return None;
            }
            log.push(command);
            log.extend_from_slice(&good[1..]);
        }
        4 => {
            log.extend_from_slice(&good[..1 + random.index(good.len() - 1)]);
            return Some(Fault { log, number, position });
        }
        _ => faulty_record(random, &records[..index], records[index], number)?.write(&mut log),
    }
    log.extend_from_slice(&write(&records[index + 1..]));
    Some(Fault { log, number, position })
}

/// A record for the place of `record` that meets one of the rows 5 to 9.
fn faulty_record(random: &mut Random, before: &[Record], record: Record, number: u64) -> Option<Record> {
    let born: Vec<u32> = births(before).collect();
    let time = record.time();
    let kind = random.byte();
    let any = random.number() as u32;
    let near = any % 400;
    let unborn = *[near, any].iter().find(|entity| !born.contains(entity))?;
    if number == 7 {
        return Some(Record::Flow { source: unborn, destination: near, kind, time });
    }
    let last = before.last()?;
    let member = born[random.index(born.len())];
    Some(match number {
        5 => with_time(record, last.time() - random.below(last.time().min(3) + 1)),
        6 => Record::Birth { entity: random.below(u64::from(*born.last()?) + 1) as u32, time },
        8 => Record::Flow { source: member, destination: unborn, kind, time },
        _ => Record::Flow { source: member, destination: member, kind, time },
    })
}

fn with_time(record: Record, time: u64) -> Record {
    match record {
        Record::Birth { entity, .. } => Record::Birth { entity, time },
        Record::Flow { source, destination, kind, .. } => Record::Flow { source, destination, kind, time },
    }
}

/// A log's bytes cut, with one more, or with one bit or byte altered.
pub fn damage_log(random: &mut Random, log: &mut Vec<u8>) {
    let at = random.index(log.len());
    match random.below(4) {
        0 => log.truncate(at),
        1 => log.push(1 + random.byte() % 3),
        2 => log[at] ^= 1 << random.below(8),
        _ => log[at] = random.byte(),
    }
}

/// A log of 65,535 sound records and what follows them: row 2.
pub fn overlong_log(random: &mut Random) -> Fault {
    let mut log = loop {
        let records = records_of_length(random, MOST_RECORDS);
        if records.len() == MOST_RECORDS {
            break write(&records);
        }
    };
    let position = log.len() as u64;
    let extra = 1 + random.index(40);
    log.extend_from_slice(&random.bytes(extra));
    Fault { log, number: 2, position }
}

/// A question about a log, known unless once in 16.
pub fn question(random: &mut Random, records: &[Record]) -> Question {
    let known = known_question(random, records);
    match random.below(32) {
        0 => Question { direction: random.byte(), ..known },
        1 => Question { direction: BETWEEN, time: known.until, until: known.time, ..known },
        _ => known,
    }
}

pub fn known_question(random: &mut Random, records: &[Record]) -> Question {
    let direction = known_direction(random);
    question_of(random, records, direction)
}

/// A question of a direction, known if that is. Entities and times lie at or near those of the log, or anywhere. The later end of a span is not
/// first; in another direction it lies on either side of the time.
pub fn question_of(random: &mut Random, records: &[Record], direction: u8) -> Question {
    let entity = match records[random.index(records.len())] {
        Record::Birth { entity, .. } => entity,
        Record::Flow { source, destination, .. } if random.once_in(2) => source.max(destination),
        Record::Flow { source, destination, .. } => source.min(destination),
    };
    let entity = near(random, u64::from(entity)) as u32;
    let mut any_time = || {
        let time = records[random.index(records.len())].time();
        near(random, time)
    };
    let (time, until) = (any_time(), any_time());
    match direction {
        BETWEEN => Question::between(entity, time.min(until), time.max(until)),
        _ => Question { direction, entity, time, until },
    }
}

pub fn known_direction(random: &mut Random) -> u8 {
    random.below(DIRECTIONS.into()) as u8
}

/// A number, mostly itself, else next to it, the least, the greatest or any.
pub fn near(random: &mut Random, number: u64) -> u64 {
    match random.below(16) {
        0 | 1 => number.wrapping_add(1),
        2 | 3 => number.wrapping_sub(1),
        4 => 0,
        5 => u64::MAX,
        6 => random.number(),
        _ => number,
    }
}

/// Bytes that differ from the answer: altered, cut, extended, or with a part
/// taken out, put in, doubled or overwritten by another.
pub fn damaged_answer(random: &mut Random, answer: &[u8]) -> Vec<u8> {
    loop {
        let damaged = damage(random, answer);
        if damaged != answer {
            return damaged;
        }
    }
}

fn damage(random: &mut Random, answer: &[u8]) -> Vec<u8> {
    let mut bytes = answer.to_vec();
    let extra = 1 + random.index(40);
    if bytes.is_empty() {
        return random.bytes(extra);
    }
    let start = random.index(bytes.len());
    let end = bytes.len().min(start + extra);
    match random.below(9) {
        0 | 1 => bytes[start] = random.byte(),
        2 => bytes[start] ^= 1 << random.below(8),
        3 => bytes.truncate(start),
        4 => bytes.extend(random.bytes(extra)),
        5 => drop(bytes.drain(start..end)),
        6 => drop(bytes.splice(start..start, random.bytes(extra))),
        7 => bytes.extend_from_within(start..end),
        _ => {
            let to = random.index(bytes.len() - (end - start) + 1);
            bytes.copy_within(start..end, to);
        }
    }
    bytes
}

/// A commitment that need not be a log's, a question, and bytes whose proof
/// strings fit the commitment. The keys are arbitrary, and the trace meets
/// one of the rows 19 to 24 now and then.
#[derive(Clone, Debug)]
pub struct Forged {
    pub question: Question,
    pub commitment: Digest,
    pub answer: Vec<u8>,
}

/// A string that hashes to its subtree's digest, and the strings below it.
struct Opening {
    known: Subtree,
    string: Vec<u8>,
    below: Vec<Opening>,
    trace: Vec<u8>,
}

pub fn forged(random: &mut Random) -> Forged {
    let (direction, entity, time) = (known_direction(random), random.below(8) as u32, random.below(8));
    let question = Question { direction, entity, time, until: time + random.below(4) };
    let asked = question.asked().expect("a known question");
    let depth = random.below(4);
    let top = forged_tree(random, b'P', depth, &asked);
    let mut root = b"R".to_vec();
    root.extend(random.bytes(16));
    root.extend_from_slice(&top.known.bytes());
    let commitment = sha256(&root);
    let mut answer = root;
    open_forged(&asked, &top, &mut answer);
    Forged { question, commitment, answer }
}

/// The time that keys are made around.
fn time_of(asked: &Asked) -> u64 {
    match asked.sought {
        Sought::One(One { time, .. }) => time,
        Sought::All(Span { from, .. }) => from,
    }
}

/// A tree of P or N strings over G or L strings.
fn forged_tree(random: &mut Random, letter: u8, depth: u64, asked: &Asked) -> Opening {
    if depth == 0 {
        return if letter == b'P' { forged_group(random, asked) } else { forged_leaf(random, asked) };
    }
    let (left_depth, right_depth) = (random.below(depth), random.below(depth));
    let left = forged_tree(random, letter, left_depth, asked);
    let right = forged_tree(random, letter, right_depth, asked);
    let key = if letter == b'P' { u64::from(asked.entity) } else { time_of(asked) };
    let keys = forged_keys(random, key);
    forged_node(letter, left, right, keys)
}

/// A tree with a path of so many N strings, mostly with keys around all others.
fn forged_path(random: &mut Random, nodes: u64, asked: &Asked) -> Opening {
    let mut tree = forged_leaf(random, asked);
    for _ in 0..nodes {
        let other = forged_leaf(random, asked);
        let (left, right) = if random.once_in(2) { (tree, other) } else { (other, tree) };
        let keys = if random.once_in(40) { forged_keys(random, time_of(asked)) } else { (0, u64::MAX - 1) };
        tree = forged_node(b'N', left, right, keys);
    }
    tree
}

/// P or N over two subtrees. A leaf has equal keys, and any other subtree unequal ones, so that the letter due is the one there.
fn forged_node(letter: u8, left: Opening, right: Opening, (least, greatest): (u64, u64)) -> Opening {
    let mut string = Vec::with_capacity(NODE);
    string.push(letter);
    string.extend_from_slice(&left.known.bytes());
    string.extend_from_slice(&right.known.bytes());
    let greatest = if least == greatest { greatest + 1 } else { greatest };
    let known = Subtree { least, greatest, digest: sha256(&string) };
    Opening { known, string, below: vec![left, right], trace: Vec::new() }
}

/// A least key, mostly at or below the one asked for, and a greatest, mostly at or above.
fn forged_keys(random: &mut Random, key: u64) -> (u64, u64) {
    match random.below(14) {
        0 => ((1 << 32) + key, (1 << 32) + random.below(8)),
        1 => (random.below(8), random.below(8)),
        2 => (u64::MAX - 1, key),
        3 => (key, 0),
        4 => (random.below(key + 1), key / 2),
        _ => (random.below(key + 1), key + random.below(3)),
    }
}

fn forged_group(random: &mut Random, asked: &Asked) -> Opening {
    let tree = match random.below(16) {
        0 => forged_path(random, 15, asked),
        1 => forged_path(random, 17, asked),
        depth => forged_tree(random, b'N', depth % 4, asked),
    };
    let mut string = b"G".to_vec();
    string.extend(random.bytes(8));
    string.extend_from_slice(&tree.known.bytes());
    let entity = u64::from(asked.entity);
    let key = if random.once_in(4) { forged_keys(random, entity).0 } else { entity };
    Opening { known: Subtree::leaf(&mut H, key, &string), string, below: vec![tree], trace: Vec::new() }
}

fn forged_leaf(random: &mut Random, asked: &Asked) -> Opening {
    let way = match asked.sought {
        Sought::One(one) => one.way,
        Sought::All(_) => None,
    };
    let versions = forged_versions(random, way.unwrap_or(Way::Forward));
    let found = found_place(way.unwrap_or(Way::Forward), versions.len());
    let mut name = versions[found].name;
    let (mut incoming, mut outgoing) = (random.digest(), random.digest());
    if fits(&versions) && !random.once_in(16) {
        incoming = incoming_digests(&versions)[found];
        outgoing = outgoing_digests(&versions)[found];
    }
    if random.once_in(16) {
        name.entity ^= 1;
    }
    let string = leaf_string(name, &incoming, &outgoing).to_vec();
    let trace = way.map(|way| forged_trace(random, way, &versions)).unwrap_or_default();
    let key = forged_key(random, asked);
    Opening { known: Subtree::leaf(&mut H, key, &string), string, below: Vec::new(), trace }
}

/// A leaf's key, mostly one that is sought.
fn forged_key(random: &mut Random, asked: &Asked) -> u64 {
    let (least, greatest) = forged_keys(random, time_of(asked));
    match asked.sought {
        Sought::One(One { relation: Relation::AtOrBefore, .. }) => least,
        Sought::One(One { relation: Relation::AtOrAfter, .. }) => greatest,
        Sought::All(_) => random.pick(&[least, greatest, greatest]),
    }
}

/// Versions with arbitrary edges, mostly from earlier ones and by rising time.
fn forged_versions(random: &mut Random, way: Way) -> Vec<Version> {
    let count = 1 + random.index(6);
    let mut versions = Vec::new();
    let mut time = random.below(4);
    for own in 0..count {
        time = if random.once_in(40) { time } else { time.wrapping_add(1 + random.below(3)) };
        let name = Name { entity: random.below(3) as u32, time };
        let edges = if own == 0 { 0 } else { random.below(4) };
        let mut temporal = Some(forged_position(random, own));
        let kind = if random.once_in(2) { 0 } else { random.byte() };
        let mut dependency = Some(Dependency { kind, source: forged_position(random, own) });
        match (way, edges) {
            (Way::Backward, 0) => (temporal, dependency) = (None, None),
            _ if own == 0 => (temporal, dependency) = (None, None),
            (Way::Forward, 0) => dependency = None,
            (Way::Forward, 1) => temporal = None,
            _ => {}
        }
        versions.push(Version { name, temporal, dependency });
    }
    versions
}

/// A position, mostly below the record's own and often the one just below.
fn forged_position(random: &mut Random, own: usize) -> usize {
    if random.once_in(60) {
        own + random.index(2)
    } else if own > 0 && random.once_in(2) {
        own - 1
    } else {
        random.index(own.max(1))
    }
}

fn forged_trace(random: &mut Random, way: Way, versions: &[Version]) -> Vec<u8> {
    let count = match random.below(40) {
        0 => 0,
        1 => 65_536 + random.below(3) as u32,
        _ => versions.len() as u32,
    };
    trace_with_count(trace_letter(way), count, &records_of(way, versions))
}

/// Writes the strings that are opened below R, and the trace.
fn open_forged(asked: &Asked, opening: &Opening, answer: &mut Vec<u8>) {
    let mut opening = opening;
    let entity = u64::from(asked.entity);
    loop {
        if entity < opening.known.least || entity > opening.known.greatest {
            return;
        }
        answer.extend_from_slice(&opening.string);
        opening = match &opening.below[..] {
            [left, right] => if entity <= left.known.greatest { left } else { right },
            [tree] => return match &asked.sought {
                Sought::One(one) => open_forged_one(one, tree, answer),
                Sought::All(span) => open_forged_span(span, tree, answer),
            },
            _ => return,
        };
    }
}

/// The strings in G's tree that lead to the version sought, and the trace.
fn open_forged_one(one: &One, opening: &Opening, answer: &mut Vec<u8>) {
    let mut opening = opening;
    while one.stop(opening.known.least, opening.known.greatest).is_none() {
        answer.extend_from_slice(&opening.string);
        let [left, right] = &opening.below[..] else {
            answer.extend_from_slice(&opening.trace);
            return;
        };
        opening = if one.goes_left(&left.known, &right.known) { left } else { right };
    }
}

/// The strings in G's tree that the span meets, in preorder, whatever their number on a path.
fn open_forged_span(span: &Span, opening: &Opening, answer: &mut Vec<u8>) {
    if span.meets(opening.known.least, opening.known.greatest) {
        answer.extend_from_slice(&opening.string);
        opening.below.iter().for_each(|below| open_forged_span(span, below, answer));
    }
}
