//! Shared by the tests of the calls on questions: each call beside the Rust version's, and a count of the rows that were met.
#![allow(dead_code)]

use reference::check as rows;
use reference::forge::{self, pieces, versions_of, Pieces};
use reference::graph::{Name, Version};
use reference::host::Host;
use reference::log::{write, Record};
use reference::random::{self, Random};
use reference::sha256::Digest;
use reference::{Question, Verdict, Way, BETWEEN, DIRECTIONS};
use std::ops::Range;
use viewer::{plain, Direction, Listed, Refusal, Span};

pub type Checked = Result<Verdict, Refusal>;

pub fn ask(direction: u8, entity: u32, time: u64) -> Question {
    Question::new(direction, entity, time)
}

pub fn between(entity: u32, from: u64, until: u64) -> Question {
    Question::between(entity, from, until)
}

/// The question as one of the library's own types has it.
#[derive(Clone, Copy)]
pub enum Typed {
    One(viewer::Question),
    All(Span),
    /// A plain number that is no direction.
    Unknown,
}

pub fn typed(question: &Question) -> Typed {
    let Question { direction, entity, time, until } = *question;
    match Direction::try_from(direction) {
        Ok(direction) => Typed::One(viewer::Question { direction, entity, time }),
        Err(_) if direction == Span::DIRECTION => Typed::All(Span { entity, from: time, until }),
        Err(_) => Typed::Unknown,
    }
}

pub fn refused<T>(number: u64, position: usize) -> Result<T, Refusal> {
    Err(Refusal { number, position: position as u64 })
}

pub fn found(time: u64, count: u64) -> Checked {
    Ok(Verdict::Found { time, count })
}

/// A list of versions, each an entity and a time.
pub fn listed(versions: &[(u32, u64)]) -> Checked {
    Ok(Verdict::Listed(versions.iter().map(|&(entity, time)| Name { entity, time }).collect()))
}

/// A call with a work area of that many bytes, none of them zero before and all of them zero after.
pub fn with_work<T>(length: usize, call: impl FnOnce(&mut [u8]) -> T) -> T {
    let mut work = vec![0xa5; length];
    let result = call(&mut work);
    assert!(work.iter().all(|byte| *byte == 0), "the work area is not zero");
    result
}

/// A call with an output of that many bytes, and how many of its first bytes it wrote: the others stay.
pub fn with_output<T>(length: usize, call: impl FnOnce(&mut [u8]) -> (T, usize)) -> (T, Vec<u8>) {
    let before: Vec<u8> = (0..length).map(|place| (7 * place + 3) as u8).collect();
    let mut out = before.clone();
    let (result, written) = call(&mut out);
    assert!(out[written..] == before[written..], "bytes behind the result are changed");
    out.truncate(written);
    (result, out)
}

/// Checks an answer with a work area of that many bytes, and an output that is long enough. Verdict, row and position, and the place of the
/// records, are the Rust version's.
pub fn check(question: &Question, commitment: &[u8], answer: &[u8], work: usize) -> Checked {
    let expected = rows::check(question, commitment, answer, work);
    let place = expected.as_ref().ok().and_then(|accepted| accepted.records.clone()).unwrap_or(0..0);
    let given = match typed(question) {
        Typed::One(asked) => check_typed(&asked, commitment, answer, work, place),
        Typed::All(span) => check_span(&span, commitment, answer, work),
        Typed::Unknown => check_unknown(question, commitment, answer, work),
    };
    assert_eq!(given, expected.map(|accepted| accepted.verdict).map_err(refusal), "{question:?}");
    given
}

/// The check of a span with enough output. With a byte too few it meets row 13, unless it meets another already, and leaves the output as it
/// was. There are no records, and any work area is all zero after.
fn check_span(span: &Span, commitment: &[u8], answer: &[u8], work: usize) -> Checked {
    let given = list_into(span, commitment, answer, viewer::list_for(answer).len() + 1);
    let length = match &given {
        Ok(Verdict::Listed(names)) => 12 * names.len(),
        _ => 0,
    };
    assert_eq!(list_into(span, commitment, answer, length), given, "{span:?}");
    if length > 0 {
        assert_eq!(list_into(span, commitment, answer, length - 1), refused(13, 0), "{span:?}");
    }
    let Span { entity, from, until } = *span;
    let part = with_work(work, |work| plain::records(Span::DIRECTION, entity, from, until, commitment, answer, work));
    assert_eq!((part.start, part.length), (0, 0), "{span:?}");
    let (checked, _) = with_output(length, |out| {
        (with_work(work, |work| plain::check(Span::DIRECTION, entity, from, until, commitment, answer, work, out)), length)
    });
    let number = given.as_ref().err().map_or(0, |refusal| refusal.number);
    assert_eq!((checked.number, checked.time, checked.count), (number, 0, length as u64 / 12), "{span:?}");
    given
}

/// The list, written to an output of that many bytes, of which no other byte is changed.
fn list_into(span: &Span, commitment: &[u8], answer: &[u8], length: usize) -> Checked {
    let (given, _) = with_output(length, |out| match viewer::check_span(span, commitment, answer, out) {
        Err(refusal) => (Err(refusal), 0),
        Ok(Listed::NoEntity) => (Ok(Verdict::NoEntity), 0),
        Ok(Listed::Versions(versions)) => {
            let written = versions.as_bytes().len();
            assert_eq!(written, 12 * versions.len());
            (Ok(Verdict::Listed(versions.map(|version| Name { entity: version.entity, time: version.time }).collect())), written)
        }
    });
    given
}

/// The check, with the records at that place; the call that gives both gives the same.
fn check_typed(asked: &viewer::Question, commitment: &[u8], answer: &[u8], work: usize, place: Range<usize>) -> Checked {
    let given = with_work(work, |work| viewer::check(asked, commitment, answer, work)).map(verdict);
    let part = with_work(work, |work| viewer::records(asked, commitment, answer, work));
    let start = part.as_ptr() as usize - answer.as_ptr() as usize;
    assert_eq!(start..start + part.len(), place, "{asked:?}");
    let both = with_work(work, |work| viewer::checked(asked, commitment, answer, work));
    assert_eq!(both.as_ref().map(|both| verdict(both.verdict)).map_err(|refusal| *refusal), given, "{asked:?}");
    if let Ok(both) = both {
        assert_eq!(both.records.as_bytes(), part, "{asked:?}");
        assert_eq!(both.records.len(), both.records.clone().count(), "{asked:?}");
        assert!(both.records.flat_map(encoded).eq(part.iter().copied()), "{asked:?}");
    }
    given
}

/// The bytes of a record.
fn encoded(record: viewer::Record) -> Vec<u8> {
    match record {
        viewer::Record::E { entity, time } => forge::e(entity, time),
        viewer::Record::S { entity, time } => forge::s(entity, time),
        viewer::Record::T { entity, time, previous } => forge::t(entity, time, previous as u32),
        viewer::Record::D { entity, time, kind, source } => forge::d(entity, time, kind, source as u32),
        viewer::Record::V { entity, time, kind, previous, source } => forge::v(entity, time, kind, previous as u32, source as u32),
    }
}

/// The check of a question whose direction only a plain number has: there are no records.
fn check_unknown(question: &Question, commitment: &[u8], answer: &[u8], work: usize) -> Checked {
    let Question { direction, entity, time, until } = *question;
    let (checked, _) = with_output(24, |out| {
        (with_work(work, |work| plain::check(direction, entity, time, until, commitment, answer, work, out)), 0)
    });
    assert_eq!((checked.verdict, checked.time, checked.count), (0, 0, 0), "{question:?}");
    let part = with_work(work, |work| plain::records(direction, entity, time, until, commitment, answer, work));
    assert_eq!((part.start, part.length), (0, 0), "{question:?}");
    refused(checked.number, checked.position as usize)
}

/// The verdict as the Rust version has it.
fn verdict(verdict: viewer::Verdict) -> Verdict {
    match verdict {
        viewer::Verdict::NoEntity => Verdict::NoEntity,
        viewer::Verdict::NotYet { first } => Verdict::NotYet { first },
        viewer::Verdict::NoneSoLate { last } => Verdict::NoneSoLate { last },
        viewer::Verdict::Found { time, count } => Verdict::Found { time, count },
    }
}

fn refusal(refusal: reference::Refusal) -> Refusal {
    Refusal { number: refusal.number, position: refusal.position }
}

/// The call with a work area and an output of the given lengths, filled with patterns, and the same call of the Rust version: result and
/// final memory must agree. Gives the result and the output's written part.
pub fn answer(question: &Question, log: &[u8], work: usize, out: usize) -> (Result<u64, Refusal>, Vec<u8>) {
    let before: Vec<u8> = (0..out).map(|place| (7 * place + 3) as u8).collect();
    let (mut given, mut expected) = (before.clone(), before);
    let Question { direction, entity, time, until } = *question;
    let result = with_work(work, |work| match typed(question) {
        Typed::One(asked) => viewer::answer(&asked, log, work, &mut given),
        Typed::All(span) => viewer::answer_span(&span, log, work, &mut given),
        Typed::Unknown => answer_unknown(question, log, work, &mut given),
    });
    let written = reference::answer(direction, entity, time, until, log, &mut vec![0; work], &mut expected);
    match written.number {
        0 => assert_eq!(result, Ok(written.length)),
        number => assert_eq!(result, refused(number, written.position as usize)),
    }
    assert!(given == expected, "{question:?}: the output differs");
    given.truncate(written.length as usize);
    (result, given)
}

/// The answer to a question whose direction only a plain number has.
fn answer_unknown(question: &Question, log: &[u8], work: &mut [u8], out: &mut [u8]) -> Result<u64, Refusal> {
    let written = plain::answer(question.direction, question.entity, question.time, question.until, log, work, out);
    assert_eq!(written.length, 0, "{question:?}");
    refused(written.number, written.position as usize)
}

/// The proved library's commitment of a log.
pub fn commitment(log: &[u8], records: usize) -> [u8; 32] {
    let mut out = [0; 32];
    viewer::commitment(log, &mut viewer::work_area(records), &mut out).expect("a sound log and enough memory");
    out
}

/// A sound log, its length in records and its commitment.
pub struct Logged {
    pub log: Vec<u8>,
    pub records: usize,
    pub commitment: [u8; 32],
    pub host: Host,
}

impl Logged {
    pub fn new(records: &[Record]) -> Self {
        let log = write(records);
        let commitment = commitment(&log, records.len());
        Logged { commitment, log, records: records.len(), host: Host::new(records) }
    }

    pub fn answer(&self, question: &Question, work: usize, out: usize) -> Result<u64, Refusal> {
        answer(question, &self.log, work, out).0
    }

    /// The answer is the defined one, and the proved check accepts it with the proved commitment.
    pub fn round_trip(&self, question: &Question, extra: usize) -> Vec<u8> {
        let defined = self.host.answer(question);
        let (result, given) = answer(question, &self.log, 128 * self.records, defined.len() + extra);
        assert_eq!(result, Ok(defined.len() as u64));
        assert!(given == defined);
        let checked = check(question, &self.commitment, &given, 128 * self.records);
        assert!(checked.is_ok(), "{question:?}: {checked:?}");
        given
    }
}

/// Random sound logs, as records.
pub fn sound_logs(seed: u64, logs: usize, most: usize) -> impl Iterator<Item = Vec<Record>> {
    let mut random = Random::new(seed);
    (0..logs).map(move |_| random::sound_records(&mut random, most))
}

/// A question about a sound log, with the log's commitment and the defined answer.
pub struct Asked {
    pub question: Question,
    pub commitment: Digest,
    pub defined: Vec<u8>,
}

impl Asked {
    pub fn new(host: &Host, question: Question) -> Self {
        Asked { question, commitment: host.commitment(), defined: host.answer(&question) }
    }

    /// The check of any bytes: those that pass are the defined answer.
    pub fn check(&self, answer: &[u8], work: usize) -> Checked {
        let checked = check(&self.question, &self.commitment, answer, work);
        assert!(checked.is_err() || answer == self.defined, "{:?}: a false answer passes", self.question);
        checked
    }
}

/// A question whose answer has a trace: its proof, and the versions that the trace shows.
pub struct Traced {
    pub asked: Asked,
    pub proof: Vec<u8>,
    pub versions: Vec<Version>,
}

/// One about a random log.
pub fn any_traced(random: &mut Random, direction: u8, most: usize) -> Traced {
    loop {
        let records = random::sound_records(random, most);
        let question = random::question_of(random, &records, direction);
        let asked = Asked::new(&Host::new(&records), question);
        let Pieces { strings, header, records } = pieces(&asked.defined);
        if header.is_some() {
            return Traced { asked, proof: strings.concat(), versions: versions_of(&records) };
        }
    }
}

/// Where directions above 6 are counted.
pub const UNKNOWN: usize = DIRECTIONS as usize;

/// How often each row was met (0: accepted), by direction.
#[derive(Default)]
pub struct Met {
    rows: [[usize; 26]; UNKNOWN + 1],
}

impl Met {
    pub fn add<T>(&mut self, question: &Question, result: &Result<T, Refusal>) {
        let number = result.as_ref().err().map_or(0, |refusal| refusal.number);
        self.rows[UNKNOWN.min(question.direction.into())][number as usize] += 1;
    }

    /// In a direction each of these rows was met so many times at least.
    pub fn includes(&self, direction: usize, least: usize, rows: &[usize]) {
        for &number in rows {
            let times = self.rows[direction][number];
            assert!(times >= least, "direction {direction}: row {number} is met {times} times");
        }
    }

    /// Also, no other row was met.
    pub fn exactly(&self, direction: usize, least: usize, rows: &[usize]) {
        self.includes(direction, least, rows);
        for (number, times) in self.rows[direction].iter().enumerate() {
            assert!(*times == 0 || rows.contains(&number), "direction {direction}: row {number} is met");
        }
    }

    pub fn total(&self) -> usize {
        self.rows.iter().flatten().sum()
    }
}

/// How often each verdict was given, by direction: no entity, not yet, none so late, found, listed.
#[derive(Default)]
pub struct Given {
    verdicts: [[usize; 5]; DIRECTIONS as usize],
}

impl Given {
    pub fn add(&mut self, question: &Question, verdict: &Verdict) {
        let place = match verdict {
            Verdict::NoEntity => 0,
            Verdict::NotYet { .. } => 1,
            Verdict::NoneSoLate { .. } => 2,
            Verdict::Found { .. } => 3,
            Verdict::Listed(_) => 4,
        };
        self.verdicts[question.direction as usize][place] += 1;
    }

    /// In each of these directions every verdict that it has was given so many times at least, and no other.
    pub fn each(&self, directions: Range<u8>, least: usize) {
        for direction in directions {
            let given = self.verdicts[direction as usize];
            let has: &[usize] = match direction {
                0..3 => &[0, 1, 3],
                3..BETWEEN => &[0, 2, 3],
                _ => &[0, 4],
            };
            for (place, times) in given.iter().enumerate() {
                assert!(if has.contains(&place) { *times >= least } else { *times == 0 }, "direction {direction}: {given:?}");
            }
        }
    }
}

/// The way of a question with a trace.
pub fn way(question: &Question) -> Way {
    question.way().expect("a question with a trace")
}
