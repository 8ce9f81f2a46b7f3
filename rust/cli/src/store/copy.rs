//! The copy of a recorder's memory in a file: a heading, then the memory's first 512 bytes, and of each of its four tables the slots in use.
//!
//! The heading has 104 bytes, numbers big-endian: 0 the letters `bozhtagul memory`; 16 the form of the copy 4; 20 the request whose rules hold 4; 24 the
//! slots of a table 4; 28 records taken 4; 32 bytes of the log that they are 8; 40 SHA-256 of these bytes 32; 72 SHA-256 of the 72 bytes before it and of
//! all that follows the heading 32.

use viewer::{Recorder, MOST_RECORDS};

use crate::calls;

const LETTERS: &[u8; 16] = b"bozhtagul memory";
const FORM: u32 = 1;
/// The rules are those of request A4.
const LEVEL: u32 = 4;
const HEADING: usize = 104;
/// What is hashed of the heading.
const HASHED: usize = 72;

const UNIT: usize = 512;
const SLOT: usize = 128;

/// A copy of the memory of a recorder that has taken all of a log.
pub fn of(memory: &[u8], records: usize, log: &[u8]) -> Vec<u8> {
    let mut copy = Vec::with_capacity(HEADING + UNIT + 4 * SLOT * records);
    copy.extend_from_slice(LETTERS);
    for number in [FORM, LEVEL, MOST_RECORDS as u32, records as u32] {
        copy.extend_from_slice(&number.to_be_bytes());
    }
    copy.extend_from_slice(&(log.len() as u64).to_be_bytes());
    copy.extend_from_slice(&calls::hash(log));
    copy.extend_from_slice(&[0; 32]);
    copy.extend_from_slice(&memory[..UNIT]);
    for (table, slots) in in_use(memory).into_iter().enumerate() {
        copy.extend_from_slice(&memory[start_of(table)..][..SLOT * slots]);
    }
    let sum = sum(&copy);
    copy[HASHED..HEADING].copy_from_slice(&sum);
    copy
}

/// What a copy says: the recorder, its records, and the bytes of the log that they are.
pub struct Copied {
    pub memory: Recorder<Vec<u8>>,
    pub records: usize,
    pub log: usize,
}

fn number(heading: &[u8], at: usize) -> u32 {
    u32::from_be_bytes(std::array::from_fn(|byte| heading[at + byte]))
}

/// The bytes of the log that a copy is of, if it is whole.
pub fn bytes_of_log(copy: &[u8]) -> Option<usize> {
    let heading = copy.get(..HEADING)?;
    let form = [16, 20, 24].map(|at| number(heading, at));
    let is_whole = heading.starts_with(LETTERS) && form == [FORM, LEVEL, MOST_RECORDS as u32] && heading[HASHED..] == sum(copy);
    let bytes = u64::from_be_bytes(std::array::from_fn(|byte| heading[32 + byte]));
    usize::try_from(bytes).ok().filter(|_| is_whole)
}

/// What a copy says, if it is whole and of a part of this log.
pub fn memory_of(copy: &[u8], log: &[u8]) -> Option<Copied> {
    let bytes = bytes_of_log(copy)?;
    let (heading, kept) = copy.split_at(HEADING);
    let (part, records) = (log.get(..bytes)?, number(heading, 28) as usize);
    if heading[40..HASHED] != calls::hash(part) || calls::records(part) != Ok(records) {
        return None;
    }
    let mut memory = viewer::recorder_memory(MOST_RECORDS);
    let (first, mut rest) = kept.split_at_checked(UNIT)?;
    memory[..UNIT].copy_from_slice(first);
    for (table, slots) in in_use(first).into_iter().enumerate() {
        let (slots, others) = rest.split_at_checked(SLOT.checked_mul(slots)?)?;
        memory.get_mut(start_of(table)..)?.get_mut(..slots.len())?.copy_from_slice(slots);
        rest = others;
    }
    rest.is_empty().then_some(Copied { memory: Recorder::resume(memory), records, log: bytes })
}

/// The slots in use of each table, as the memory's header has them: of the first two the versions, of the others the entities.
fn in_use(memory: &[u8]) -> [usize; 4] {
    let [versions, entities] = [4, 8].map(|at| (number(memory, at) as usize).min(MOST_RECORDS));
    [versions, versions, entities, entities]
}

fn start_of(table: usize) -> usize {
    UNIT + table * SLOT * MOST_RECORDS
}

/// SHA-256 of a copy, all but the place where it stands.
fn sum(copy: &[u8]) -> [u8; 32] {
    calls::hash(&[&copy[..HASHED], &copy[HEADING..]].concat())
}
