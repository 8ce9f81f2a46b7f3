//! Safe calls of the proved library.
//!
//! A recorder keeps a log and commits to it; a host, which nobody has to trust, answers questions about it; [`checked`] gives what an answer says if
//! it is the true one, and else why it is refused. The calls here give what a caller needs of a result; those of [`plain`] give all of it, and
//! take any number for a direction.
//!
//! A recorder that runs need not rebuild its commitment: a [`Recorder`] takes one record a call into memory that it is lent, and has the commitment
//! of the records taken at any time.
//!
//! No call takes memory from the heap: the caller lends it, as [`work_area`], [`work_for`], [`list_for`], [`recorder_memory`] and [`most_answer`] say
//! how much, and a call keeps nothing. Every call ends, whatever bytes it is given, and takes the stack that [`stack`] says.
//!
//! # From a log to records
//!
//! ```
//! use viewer::{Direction, Listed, Question, Record, Span, Verdict, Version};
//!
//! fn main() -> Result<(), Box<dyn std::error::Error>> {
//!     // the log: entities 1 and 2 are born at 10 and 20, then each feeds the other
//!     let birth = |entity: u32, time: u64| [&[1][..], &entity.to_be_bytes(), &time.to_be_bytes()].concat();
//!     let flow = |source: u32, destination: u32, kind: u8, time: u64| {
//!         [&[2][..], &source.to_be_bytes(), &destination.to_be_bytes(), &[kind], &time.to_be_bytes()].concat()
//!     };
//!     let log = [birth(1, 10), birth(2, 20), flow(1, 2, 7, 30), flow(2, 1, 8, 40)].concat();
//!
//!     // the recorder publishes the commitment
//!     let records = viewer::log(&log)? as usize;
//!     let mut work = viewer::work_area(records);
//!     let mut commitment = [0; viewer::DIGEST];
//!     viewer::commitment(&log, &mut work, &mut commitment)?;
//!
//!     // the host answers: what led to the version of entity 2 that stood at time 35?
//!     let question = Question { direction: Direction::Backward, entity: 2, time: 35 };
//!     let mut answer = vec![0; viewer::most_answer(question.direction, records)];
//!     let length = viewer::answer(&question, &log, &mut work, &mut answer)?;
//!     answer.truncate(length as usize);
//!
//!     // the viewer has the commitment and the answer, and no log
//!     let mut work = viewer::work_for(&answer);
//!     let checked = viewer::checked(&question, &commitment, &answer, &mut work)?;
//!     assert_eq!(checked.verdict, Verdict::Found { time: 30, count: 3 });
//!     let shown: Vec<Record> = checked.records.collect();
//!     assert_eq!(
//!         shown,
//!         [
//!             Record::E { entity: 1, time: 10 },
//!             Record::E { entity: 2, time: 20 },
//!             Record::V { entity: 2, time: 30, kind: 7, previous: 1, source: 0 },
//!         ]
//!     );
//!
//!     // what became of entity 2 from time 31 on? nothing, and the answer says when its last version was
//!     let late = Question { direction: Direction::ForwardAfter, entity: 2, time: 31 };
//!     let mut none = vec![0; viewer::most_answer(late.direction, records)];
//!     let length = viewer::answer(&late, &log, &mut viewer::work_area(records), &mut none)?;
//!     none.truncate(length as usize);
//!     assert_eq!(viewer::check(&late, &commitment, &none, &mut [])?, Verdict::NoneSoLate { last: 30 });
//!
//!     // all versions of entity 1 from 10 to 40: an answer to a span is checked into a list, and takes no work area
//!     let span = Span { entity: 1, from: 10, until: 40 };
//!     let mut all = vec![0; viewer::most_span_answer(records)];
//!     let length = viewer::answer_span(&span, &log, &mut viewer::work_area(records), &mut all)?;
//!     all.truncate(length as usize);
//!     let mut list = viewer::list_for(&all);
//!     let Listed::Versions(versions) = viewer::check_span(&span, &commitment, &all, &mut list)? else { panic!("1 is in the log") };
//!     assert!(versions.eq([Version { entity: 1, time: 10 }, Version { entity: 1, time: 40 }]));
//!
//!     // a changed answer is refused
//!     answer[437] ^= 1;
//!     let refusal = viewer::checked(&question, &commitment, &answer, &mut work).unwrap_err();
//!     assert_eq!(refusal.to_string(), "refused 24 at 424: its path digest differs from L");
//!     Ok(())
//! }
//! ```
//!
//! # A running recorder
//!
//! ```
//! use viewer::Recorder;
//!
//! fn main() -> Result<(), viewer::Refusal> {
//!     // entities 1 and 2 are born at 10 and 20
//!     let birth = |entity: u32, time: u64| [&[1][..], &entity.to_be_bytes(), &time.to_be_bytes()].concat();
//!     let log = [birth(1, 10), birth(2, 20)];
//!
//!     // memory for two records, which the recorder owns; it may be borrowed too
//!     let mut recorder = Recorder::start(viewer::recorder_memory(2))?;
//!     assert_eq!(recorder.commitment().unwrap_err().to_string(), "refused 1 at 0: log empty");
//!     for record in &log {
//!         recorder.take(record)?;
//!     }
//!
//!     // the commitment is that of the log made of the records taken
//!     let mut rebuilt = [0; viewer::DIGEST];
//!     viewer::commitment(&log.concat(), &mut viewer::work_area(2), &mut rebuilt)?;
//!     assert_eq!(recorder.commitment()?, rebuilt);
//!
//!     // a record that is refused changes nothing
//!     assert_eq!(recorder.take(&birth(3, 20)).unwrap_err().to_string(), "refused 5 at 0: time not above the record before");
//!     assert_eq!(recorder.take(&birth(3, 30)).unwrap_err().to_string(), "refused 26 at 0: no place left");
//!     assert_eq!(recorder.commitment()?, rebuilt);
//!     Ok(())
//! }
//! ```

pub mod plain;
mod question;
mod record;
mod recorder;
mod refusal;
mod room;
pub mod stack;
mod version;

pub use question::{Direction, Question, Relation, Span, UnknownDirection, Way, DIRECTIONS};
pub use record::{Edge, Record, Records};
pub use recorder::Recorder;
pub use refusal::Refusal;
pub use room::{
    list_for, most_answer, most_span_answer, recorder_length, recorder_memory, work_area, work_for, work_length, DIGEST, MOST_LISTING,
    MOST_RECORDS,
};
pub use version::{Version, Versions};

/// What an accepted answer to a [`Question`] says.
#[derive(Clone, Copy, Debug, PartialEq, Eq, Hash)]
pub enum Verdict {
    /// No version of the entity.
    NoEntity,
    /// No version at or before the time; the entity's first one is at `first`.
    NotYet { first: u64 },
    /// No version at or after the time; the entity's last one is at `last`.
    NoneSoLate { last: u64 },
    /// The version's time, and the number of its trace's records, 0 without a trace.
    Found { time: u64, count: u64 },
}

/// What an accepted answer to a [`Span`] says.
#[derive(Clone, Debug)]
pub enum Listed<'a> {
    /// No version of the entity.
    NoEntity,
    /// All versions of the entity in the span; there may be none.
    Versions(Versions<'a>),
}

fn accepted(outcome: plain::Outcome) -> Result<(), Refusal> {
    match outcome.number {
        0 => Ok(()),
        number => Err(Refusal { number, position: outcome.position }),
    }
}

fn counted(written: plain::Written) -> Result<u64, Refusal> {
    match written.number {
        0 => Ok(written.length),
        number => Err(Refusal { number, position: written.position }),
    }
}

/// Writes the SHA-256 of a message to the first 32 bytes of `out`. A shorter `out` is row 13, and stays as it was.
///
/// Takes at most [`stack::HASH`] bytes of stack, 2 KiB, as measured.
pub fn hash(message: &[u8], out: &mut [u8]) -> Result<(), Refusal> {
    accepted(plain::hash(message, out))
}

/// The number of records of a sound log; else the row of 1 to 9 that it meets.
///
/// Takes at most [`stack::LOG`] bytes of stack, 264 KiB, as measured.
pub fn log(log: &[u8]) -> Result<u64, Refusal> {
    counted(plain::log(log))
}

/// Writes what the listing program prints for an input to the first bytes of `out`, and gives its length, which is at most [`MOST_LISTING`]. A
/// shorter `out` is row 13, and stays as it was.
///
/// Takes at most [`stack::LISTING`] bytes of stack, 136 KiB, as measured.
pub fn listing(input: &[u8], out: &mut [u8]) -> Result<u64, Refusal> {
    counted(plain::listing(input, out))
}

/// Writes a log's commitment to the first 32 bytes of `out`; else the row of 1 to 9, 12 or 13 that the call meets, and `out` stays as it
/// was. The work area takes 128 bytes a record ([`work_area`]), and is all zero afterwards.
///
/// Takes at most [`stack::COMMITMENT`] bytes of stack, 264 KiB, as measured.
pub fn commitment(log: &[u8], work: &mut [u8], out: &mut [u8]) -> Result<(), Refusal> {
    accepted(plain::commitment(log, work, out))
}

/// Writes the answer to a question about a log to the first bytes of `out`, and gives its length, which is at most [`most_answer`]; else the
/// row of 1 to 9, 12 or 13 that the call meets, and `out` stays as it was. The work area is as for [`commitment`].
///
/// Takes at most [`stack::ANSWER`] bytes of stack, 264 KiB, as measured.
pub fn answer(question: &Question, log: &[u8], work: &mut [u8], out: &mut [u8]) -> Result<u64, Refusal> {
    counted(plain::answer(question.direction.number(), question.entity, question.time, 0, log, work, out))
}

/// Writes the answer to a span, as [`answer`] does, with row 25 before all others. Its length is at most [`most_span_answer`].
///
/// Takes at most [`stack::ANSWER`] bytes of stack, 264 KiB, as measured.
pub fn answer_span(span: &Span, log: &[u8], work: &mut [u8], out: &mut [u8]) -> Result<u64, Refusal> {
    counted(plain::answer(Span::DIRECTION, span.entity, span.from, span.until, log, work, out))
}

/// Checks an answer against a commitment: the verdict, if the answer is accepted; else the row of 12 and 14 to 24 that it meets. The
/// work area takes 128 bytes a record of the trace ([`work_for`]), and is all zero afterwards.
///
/// Takes at most [`stack::CHECK`] bytes of stack, 5 KiB, as measured.
pub fn check(question: &Question, commitment: &[u8], answer: &[u8], work: &mut [u8]) -> Result<Verdict, Refusal> {
    let checked = plain::check(question.direction.number(), question.entity, question.time, 0, commitment, answer, work, &mut []);
    match (checked.number, checked.verdict) {
        (0, 1) => Ok(Verdict::NoEntity),
        (0, 2) => Ok(Verdict::NotYet { first: checked.time }),
        (0, 3) => Ok(Verdict::Found { time: checked.time, count: checked.count }),
        (0, 4) => Ok(Verdict::NoneSoLate { last: checked.time }),
        (0, verdict) => unreachable!("no question has the verdict {verdict}"),
        (number, _) => Err(Refusal { number, position: checked.position }),
    }
}

/// Checks an answer to a span against a commitment: if it is accepted, the list of versions, which is written to the first bytes of `out`; else
/// the row of 13 to 18 and 25 that it meets, and `out` stays as it was. The list takes 12 bytes a version ([`list_for`]), and no work area.
///
/// Takes at most [`stack::CHECK`] bytes of stack, 5 KiB, as measured.
pub fn check_span<'a>(span: &Span, commitment: &[u8], answer: &[u8], out: &'a mut [u8]) -> Result<Listed<'a>, Refusal> {
    let checked = plain::check(Span::DIRECTION, span.entity, span.from, span.until, commitment, answer, &mut [], out);
    match (checked.number, checked.verdict) {
        (0, 1) => Ok(Listed::NoEntity),
        (0, 5) => Ok(Listed::Versions(Versions::new(&out[..room::VERSION * checked.count as usize]))),
        (0, verdict) => unreachable!("no span has the verdict {verdict}"),
        (number, _) => Err(Refusal { number, position: checked.position }),
    }
}

/// The checked records as that part of the answer, without the trace header; empty if there are none or the check refuses. The work area
/// is as for [`check`].
///
/// Takes at most [`stack::RECORDS`] bytes of stack, 3 KiB, as measured.
pub fn records<'a>(question: &Question, commitment: &[u8], answer: &'a [u8], work: &mut [u8]) -> &'a [u8] {
    let part = plain::records(question.direction.number(), question.entity, question.time, 0, commitment, answer, work);
    &answer[part.start as usize..][..part.length as usize]
}

/// What an accepted answer says, and its checked records: none without a trace.
#[derive(Clone, Debug)]
pub struct Checked<'a> {
    pub verdict: Verdict,
    pub records: Records<'a>,
}

/// Checks an answer as [`check`] does, and gives the verdict and the checked records together. The verdict is what the exported check gives, and
/// the records are where the exported call of that name says; so an answer with a trace is checked twice, which takes twice as long.
///
/// Takes at most the stack of [`check`] or of [`records`], 5 KiB, as measured.
pub fn checked<'a>(question: &Question, commitment: &[u8], answer: &'a [u8], work: &mut [u8]) -> Result<Checked<'a>, Refusal> {
    let verdict = check(question, commitment, answer, work)?;
    let records = match verdict {
        Verdict::Found { count, .. } if count > 0 => Records::new(records(question, commitment, answer, work), count as usize),
        _ => Records::new(&[], 0),
    };
    Ok(Checked { verdict, records })
}
