//! Reference implementation of verifiable causality answers over an event log:
//! hash, log reader, graph, path digests, accumulator, answer writer, check,
//! listing and running recorder.
//!
//! Every call returns `number` 0 when it is not turned away, else the number
//! and position of a row of the table in section "What turns a call away".
//! A refused call leaves its output as it was. A work area is all zero after
//! every call, and no result depends on what it or the output held before.

#![forbid(unsafe_code)]

pub mod check;
pub mod collision;
pub mod edit;
pub mod fields;
pub mod forge;
pub mod graph;
pub mod hash;
pub mod hex;
pub mod host;
pub mod lanes;
pub mod listing;
pub mod log;
pub mod offers;
pub mod places;
mod question;
pub mod random;
pub mod recorder;
mod refusal;
pub mod running;
pub mod sample;
pub mod sha256;
pub mod trace;
pub mod tree;
pub mod vectors;

use hash::{Hash, H};
use host::Host;
pub use question::{Asked, One, Question, Relation, Sought, Span, Verdict, Way, BETWEEN, DIRECTIONS};
pub use refusal::{Refusal, WORK};
use refusal::{enough_work, refuse};

/// The result of a call that writes a fixed number of bytes.
#[derive(Clone, Copy, Debug, Default, PartialEq, Eq)]
pub struct Outcome {
    pub number: u64,
    pub position: u64,
}

/// The result of a call with a length: of the bytes written, or of the log in records.
#[derive(Clone, Copy, Debug, Default, PartialEq, Eq)]
pub struct Written {
    pub number: u64,
    pub position: u64,
    pub length: u64,
}

/// The verdicts as numbers.
pub const REFUSED: u64 = 0;
pub const NO_ENTITY: u64 = 1;
pub const NOT_YET: u64 = 2;
pub const FOUND: u64 = 3;
pub const NONE_SO_LATE: u64 = 4;
pub const LISTED: u64 = 5;

/// Bytes of a version in a list: entity and time.
pub const LIST_ENTRY: usize = 12;

/// The result of a check. `time` is the found version's, the entity's first with not yet and its last with none so late, else 0; `count` is
/// the number of a found version's records or of the versions listed, else 0.
#[derive(Clone, Copy, Debug, Default, PartialEq, Eq)]
pub struct Checked {
    pub number: u64,
    pub position: u64,
    pub verdict: u64,
    pub time: u64,
    pub count: u64,
}

/// Where in the answer the checked records lie; 0, 0 if there are none.
#[derive(Clone, Copy, Debug, Default, PartialEq, Eq)]
pub struct Part {
    pub start: u64,
    pub length: u64,
}

/// SHA-256 of the message, 32 bytes. Row 13.
pub fn hash(message: &[u8], out: &mut [u8]) -> Outcome {
    outcome(write(&sha256::sha256(message), out))
}

/// The number of records of a sound log. Rows 1 to 9.
pub fn log(bytes: &[u8]) -> Written {
    written(log::read(bytes).map(|records| records.len()))
}

/// The listing program's text for an input. Row 13 only.
pub fn listing(input: &[u8], out: &mut [u8]) -> Written {
    written(write(listing::text(input).as_bytes(), out))
}

/// The commitment of a log, 32 bytes. Log, 12, 13.
pub fn commitment(log: &[u8], work: &mut [u8], out: &mut [u8]) -> Outcome {
    commitment_by(&mut H, log, work, out)
}

pub fn commitment_by(hash: &mut impl Hash, log: &[u8], work: &mut [u8], out: &mut [u8]) -> Outcome {
    let length = work.len();
    work.fill(0);
    outcome(commitment_result(hash, log, length, out))
}

fn commitment_result(hash: &mut impl Hash, log: &[u8], work: usize, out: &mut [u8]) -> Result<usize, Refusal> {
    let records = log::read(log)?;
    enough_work(work, records.len())?;
    write(&Host::by(hash, &records).commitment_by(hash), out)
}

/// The answer to a question about a log. 11, 25, log, 12, 13.
pub fn answer(
    direction: u8,
    entity: u32,
    time: u64,
    until: u64,
    log: &[u8],
    work: &mut [u8],
    out: &mut [u8],
) -> Written {
    answer_by(&mut H, &Question { direction, entity, time, until }, log, work, out)
}

pub fn answer_by(hash: &mut impl Hash, question: &Question, log: &[u8], work: &mut [u8], out: &mut [u8]) -> Written {
    let length = work.len();
    work.fill(0);
    written(answer_result(hash, question, log, length, out))
}

fn answer_result(hash: &mut impl Hash, question: &Question, log: &[u8], work: usize, out: &mut [u8]) -> Result<usize, Refusal> {
    let asked = question.asked()?;
    let records = log::read(log)?;
    enough_work(work, records.len())?;
    write(&Host::by(hash, &records).answer_to(hash, &asked), out)
}

/// The check of an answer. 11, 25, 14, the proof, the trace; in direction 6 then 13, and the list is the output's first bytes.
#[allow(clippy::too_many_arguments)]
pub fn check(
    direction: u8,
    entity: u32,
    time: u64,
    until: u64,
    commitment: &[u8],
    answer: &[u8],
    work: &mut [u8],
    out: &mut [u8],
) -> Checked {
    let length = work.len();
    work.fill(0);
    match check_result(&Question { direction, entity, time, until }, commitment, answer, length, out) {
        Err(Refusal { number, position }) => Checked { number, position, ..Checked::default() },
        Ok(verdict) => checked(verdict),
    }
}

fn check_result(question: &Question, commitment: &[u8], answer: &[u8], work: usize, out: &mut [u8]) -> Result<Verdict, Refusal> {
    let verdict = check::check(question, commitment, answer, work)?.verdict;
    if let Verdict::Listed(names) = &verdict {
        write(&list(names), out)?;
    }
    Ok(verdict)
}

/// A list as the check writes it: each version's entity and time.
pub fn list(names: &[graph::Name]) -> Vec<u8> {
    names.iter().flat_map(|name| [&name.entity.to_be_bytes()[..], &name.time.to_be_bytes()].concat()).collect()
}

fn checked(verdict: Verdict) -> Checked {
    let (verdict, time, count) = match verdict {
        Verdict::NoEntity => (NO_ENTITY, 0, 0),
        Verdict::NotYet { first } => (NOT_YET, first, 0),
        Verdict::NoneSoLate { last } => (NONE_SO_LATE, last, 0),
        Verdict::Found { time, count } => (FOUND, time, count),
        Verdict::Listed(names) => (LISTED, 0, names.len() as u64),
    };
    Checked { verdict, time, count, ..Checked::default() }
}

/// The checked records as a part of the answer, without the trace header;
/// empty if there are none or the check refuses. A list has none.
pub fn records(
    direction: u8,
    entity: u32,
    time: u64,
    until: u64,
    commitment: &[u8],
    answer: &[u8],
    work: &mut [u8],
) -> Part {
    let length = work.len();
    work.fill(0);
    let question = Question { direction, entity, time, until };
    match check::check(&question, commitment, answer, length) {
        Ok(check::Accepted { records: Some(place), .. }) => {
            Part { start: place.start as u64, length: place.len() as u64 }
        }
        _ => Part::default(),
    }
}

/// A fresh recorder in the memory. Row 26, below 512 bytes.
pub fn recorder_start(memory: &mut [u8]) -> Outcome {
    outcome(running::start(memory))
}

/// A record for the recorder in the memory. 4 if it is empty, 2 to 9, 18, 26.
pub fn recorder_take(record: &[u8], memory: &mut [u8]) -> Outcome {
    outcome(running::take(&mut H, record, memory))
}

/// The commitment of the records that the recorder took, 32 bytes. 1, 13.
pub fn recorder_commitment(memory: &[u8], out: &mut [u8]) -> Outcome {
    outcome(running::commitment(&mut H, memory).and_then(|commitment| write(&commitment, out)))
}

/// Row 13: output too short for the result; else the result is the output's first bytes.
fn write(result: &[u8], out: &mut [u8]) -> Result<usize, Refusal> {
    if out.len() < result.len() {
        return refuse(13, 0);
    }
    out[..result.len()].copy_from_slice(result);
    Ok(result.len())
}

fn outcome<T>(result: Result<T, Refusal>) -> Outcome {
    match result {
        Ok(_) => Outcome::default(),
        Err(Refusal { number, position }) => Outcome { number, position },
    }
}

fn written(result: Result<usize, Refusal>) -> Written {
    match result {
        Ok(length) => Written { number: 0, position: 0, length: length as u64 },
        Err(Refusal { number, position }) => Written { number, position, length: 0 },
    }
}
