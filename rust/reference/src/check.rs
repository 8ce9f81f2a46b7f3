//! The reader of answers (section Questions and answers; the table, rows 11 to 24; requests A1 and A2).

use std::ops::Range;

use crate::fields::{digest_at, u32_at, u64_at};
use crate::graph::{incoming_digests_by, outgoing_digests_by, Dependency, Name, Version};
use crate::hash::{Hash, H};
use crate::log::MOST_RECORDS;
use crate::question::{One, Question, Sought, Span, Verdict, Way};
use crate::refusal::{enough_work, refuse, Refusal};
use crate::sha256::Digest;
use crate::trace::{found_place, record_width, trace_letter, HEADER};
use crate::tree::{Subtree, GROUP, LEAF, NODE, ROOT};

/// What an accepted answer gives.
#[derive(Clone, Debug, PartialEq, Eq)]
pub struct Accepted {
    pub verdict: Verdict,
    /// Where the checked records lie in the answer; none if there is no trace.
    pub records: Option<Range<usize>>,
}

/// No path in an entity's tree has more N strings: where another would stand, no letter is due.
const MOST_NODES: usize = 16;

/// Where the walk for one version ends.
enum End {
    Stopped(Verdict),
    Found(Leaf),
}

/// The opened L.
struct Leaf {
    name: Name,
    incoming: Digest,
    outgoing: Digest,
}

impl Leaf {
    fn of(string: &[u8]) -> Self {
        Leaf {
            name: Name { entity: u32_at(string, 1), time: u64_at(string, 5) },
            incoming: digest_at(string, 13),
            outgoing: digest_at(string, 45),
        }
    }
}

/// The rows by their order: 11, 25, 14, the proof, the trace. Row 13, which comes after these, is met where a list is written.
pub fn check(question: &Question, commitment: &[u8], answer: &[u8], work: usize) -> Result<Accepted, Refusal> {
    check_by(&mut H, question, commitment, answer, work)
}

pub fn check_by(
    hash: &mut impl Hash,
    question: &Question,
    commitment: &[u8],
    answer: &[u8],
    work: usize,
) -> Result<Accepted, Refusal> {
    let asked = question.asked()?;
    let Ok(commitment) = <&Digest>::try_from(commitment) else {
        return refuse(14, 0);
    };
    let mut cursor = Cursor { answer, place: 0 };
    let root = cursor.open(hash, b'R', ROOT, commitment)?;
    let verdict = match (entity_walk(hash, asked.entity.into(), Subtree::at(root, 17), &mut cursor)?, asked.sought) {
        (None, _) => Verdict::NoEntity,
        (Some(tree), Sought::One(one)) => match (time_walk(hash, &one, tree, &mut cursor)?, one.way) {
            (End::Stopped(verdict), _) => verdict,
            (End::Found(leaf), None) => Verdict::Found { time: leaf.name.time, count: 0 },
            (End::Found(leaf), Some(way)) => return trace(hash, way, &leaf, &mut cursor, work),
        },
        (Some(tree), Sought::All(span)) => {
            let mut names = Vec::new();
            span_walk(hash, &span, tree, MOST_NODES, &mut cursor, &mut names)?;
            Verdict::Listed(names)
        }
    };
    cursor.end()?;
    Ok(Accepted { verdict, records: None })
}

/// The place up to which the answer has been read.
struct Cursor<'a> {
    answer: &'a [u8],
    place: usize,
}

impl<'a> Cursor<'a> {
    /// A string, trace header or record by 15 (no byte), 16, 15 (width).
    /// `width` is none for a letter that is not due.
    fn piece(&mut self, width: impl Fn(u8) -> Option<usize>) -> Result<&'a [u8], Refusal> {
        let rest = &self.answer[self.place..];
        let Some(&letter) = rest.first() else {
            return refuse(15, self.place);
        };
        let Some(width) = width(letter) else {
            return refuse(16, self.place);
        };
        if rest.len() < width {
            return refuse(15, self.place);
        }
        self.place += width;
        Ok(&rest[..width])
    }

    /// A proof string: as a piece, then 17.
    fn open(&mut self, hash: &mut impl Hash, letter: u8, width: usize, due: &Digest) -> Result<&'a [u8], Refusal> {
        let start = self.place;
        let string = self.piece(|found| (found == letter).then_some(width))?;
        if hash.of(string) != *due {
            return refuse(17, start);
        }
        Ok(string)
    }

    /// Row 18: bytes after the end.
    fn end(&self) -> Result<(), Refusal> {
        if self.place < self.answer.len() {
            return refuse(18, self.place);
        }
        Ok(())
    }
}

/// The walk in the tree of entities; gives the entity's tree, or none: no entity.
fn entity_walk(hash: &mut impl Hash, s: u64, mut known: Subtree, cursor: &mut Cursor) -> Result<Option<Subtree>, Refusal> {
    loop {
        if s < known.least || s > known.greatest {
            return Ok(None);
        }
        if known.least == known.greatest {
            let string = cursor.open(hash, b'G', GROUP, &known.digest)?;
            return Ok(Some(Subtree::at(string, 9)));
        }
        let string = cursor.open(hash, b'P', NODE, &known.digest)?;
        let (left, right) = (Subtree::at(string, 1), Subtree::at(string, 49));
        known = if s <= left.greatest { left } else { right };
    }
}

/// The walk in the entity's tree for one version, to a stop or to the opened L.
fn time_walk(hash: &mut impl Hash, one: &One, mut known: Subtree, cursor: &mut Cursor) -> Result<End, Refusal> {
    loop {
        if let Some(verdict) = one.stop(known.least, known.greatest) {
            return Ok(End::Stopped(verdict));
        }
        if known.least == known.greatest {
            return Ok(End::Found(Leaf::of(cursor.open(hash, b'L', LEAF, &known.digest)?)));
        }
        let string = cursor.open(hash, b'N', NODE, &known.digest)?;
        let (left, right) = (Subtree::at(string, 1), Subtree::at(string, 49));
        known = if one.goes_left(&left, &right) { left } else { right };
    }
}

/// The strings of a known subtree that the span meets, in preorder, with at most `nodes` N strings on a path. The names of the opened L
/// strings are added to those before.
fn span_walk(
    hash: &mut impl Hash,
    span: &Span,
    known: Subtree,
    nodes: usize,
    cursor: &mut Cursor,
    names: &mut Vec<Name>,
) -> Result<(), Refusal> {
    if !span.meets(known.least, known.greatest) {
        return Ok(());
    }
    if known.least == known.greatest {
        names.push(Leaf::of(cursor.open(hash, b'L', LEAF, &known.digest)?).name);
        return Ok(());
    }
    if nodes == 0 {
        // no letter is due
        return cursor.piece(|_| None).map(|_| ());
    }
    let string = cursor.open(hash, b'N', NODE, &known.digest)?;
    span_walk(hash, span, Subtree::at(string, 1), nodes - 1, cursor, names)?;
    span_walk(hash, span, Subtree::at(string, 49), nodes - 1, cursor, names)
}

/// A record of a trace and its first byte.
struct TraceRecord {
    start: usize,
    version: Version,
}

/// The trace: header, each record, then 18, 22, 23, 24.
fn trace(hash: &mut impl Hash, way: Way, leaf: &Leaf, cursor: &mut Cursor, work: usize) -> Result<Accepted, Refusal> {
    let count = header(way, cursor, work)?;
    let first = cursor.place;
    let mut starts = Vec::new();
    let mut versions: Vec<Version> = Vec::new();
    for own in 0..count {
        let previous_time = versions.last().map(|version| version.name.time);
        let record = record(way, own, previous_time, cursor)?;
        starts.push(record.start);
        versions.push(record.version);
    }
    cursor.end()?;
    if way == Way::Backward {
        if let Some(idle) = idle(&versions) {
            return refuse(22, starts[idle]);
        }
    }
    let found = found_place(way, count);
    if versions[found].name != leaf.name {
        return refuse(23, starts[found]);
    }
    let same = match way {
        Way::Backward => incoming_digests_by(hash, &versions)[found] == leaf.incoming,
        Way::Forward => outgoing_digests_by(hash, &versions)[found] == leaf.outgoing,
    };
    if !same {
        return refuse(24, starts[found]);
    }
    let verdict = Verdict::Found { time: leaf.name.time, count: count as u64 };
    Ok(Accepted { verdict, records: Some(first..cursor.place) })
}

/// The trace header by 15, 16, 15, 19, 12; gives the count.
fn header(way: Way, cursor: &mut Cursor, work: usize) -> Result<usize, Refusal> {
    let start = cursor.place;
    let header = cursor.piece(|found| (found == trace_letter(way)).then_some(HEADER))?;
    let count = u32_at(header, 1) as usize;
    if count == 0 || count > MOST_RECORDS {
        return refuse(19, start);
    }
    enough_work(work, count)?;
    Ok(count)
}

/// A record by 15, 16, 15, 20, 21. `own` is the record's position.
fn record(way: Way, own: usize, previous_time: Option<u64>, cursor: &mut Cursor) -> Result<TraceRecord, Refusal> {
    let start = cursor.place;
    let bytes = cursor.piece(|letter| record_width(letter).filter(|_| is_due(way, own, letter)))?;
    let version = decode_record(bytes);
    let source = version.dependency.map(|edge| edge.source);
    if version.temporal.into_iter().chain(source).any(|position| position >= own) {
        return refuse(20, start);
    }
    if previous_time.is_some_and(|previous| version.name.time <= previous) {
        return refuse(21, start);
    }
    Ok(TraceRecord { start, version })
}

/// Whether a record's letter is due at its position.
fn is_due(way: Way, own: usize, letter: u8) -> bool {
    match (letter, way) {
        (b'E' | b'V', Way::Backward) => true,
        (b'S', Way::Forward) => own == 0,
        (b'T' | b'D' | b'V', Way::Forward) => own > 0,
        _ => false,
    }
}

/// The version and the edges that a record shows.
pub(crate) fn decode_record(bytes: &[u8]) -> Version {
    let name = Name { entity: u32_at(bytes, 1), time: u64_at(bytes, 5) };
    let position = |at| u32_at(bytes, at) as usize;
    let (temporal, dependency) = match bytes[0] {
        b'T' => (Some(position(13)), None),
        b'D' => (None, Some(Dependency { kind: bytes[13], source: position(14) })),
        b'V' => (Some(position(14)), Some(Dependency { kind: bytes[13], source: position(18) })),
        _ => (None, None),
    };
    Version { name, temporal, dependency }
}

/// The lowest record that is not last and that no record refers to.
fn idle(versions: &[Version]) -> Option<usize> {
    let mut referred = vec![false; versions.len()];
    for version in versions {
        if let Some(start) = version.temporal {
            referred[start] = true;
        }
        if let Some(edge) = version.dependency {
            referred[edge.source] = true;
        }
    }
    referred[..versions.len() - 1].iter().position(|&used| !used)
}
