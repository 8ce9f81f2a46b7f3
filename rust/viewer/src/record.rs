//! The records of a checked trace.

use std::iter::FusedIterator;

/// A record of a trace, by its letter in document 01: the version that it shows, and the positions in the trace of the versions that its
/// edges start from, `previous` for the temporal edge and `source` for the dependency edge. Positions count records from 0.
#[derive(Clone, Copy, Debug, PartialEq, Eq, Hash)]
pub enum Record {
    /// Backward: an entry version.
    E { entity: u32, time: u64 },
    /// Forward: the found version, which is first.
    S { entity: u32, time: u64 },
    /// Forward: only the temporal edge starts inside the trace.
    T { entity: u32, time: u64, previous: usize },
    /// Forward: only the dependency edge starts inside the trace.
    D { entity: u32, time: u64, kind: u8, source: usize },
    /// Both edges start inside the trace.
    V { entity: u32, time: u64, kind: u8, previous: usize, source: usize },
}

/// An edge that a record shows: the position in the trace of the version that it starts from, and its kind if it is a dependency edge.
#[derive(Clone, Copy, Debug, PartialEq, Eq, Hash)]
pub struct Edge {
    pub start: usize,
    pub kind: Option<u8>,
}

impl Record {
    pub fn entity(&self) -> u32 {
        match *self {
            Record::E { entity, .. } | Record::S { entity, .. } => entity,
            Record::T { entity, .. } | Record::D { entity, .. } | Record::V { entity, .. } => entity,
        }
    }

    pub fn time(&self) -> u64 {
        match *self {
            Record::E { time, .. } | Record::S { time, .. } => time,
            Record::T { time, .. } | Record::D { time, .. } | Record::V { time, .. } => time,
        }
    }

    /// The edges that the record shows, temporal first.
    pub fn edges(&self) -> impl Iterator<Item = Edge> {
        let (temporal, dependency) = match *self {
            Record::E { .. } | Record::S { .. } => (None, None),
            Record::T { previous, .. } => (Some(previous), None),
            Record::D { kind, source, .. } => (None, Some((source, kind))),
            Record::V { kind, previous, source, .. } => (Some(previous), Some((source, kind))),
        };
        let temporal = temporal.map(|start| Edge { start, kind: None });
        temporal.into_iter().chain(dependency.map(|(start, kind)| Edge { start, kind: Some(kind) }))
    }

    /// The record that bytes begin with, and the bytes behind it; none if they begin with no record.
    fn split_first(bytes: &[u8]) -> Option<(Record, &[u8])> {
        let mut rest = bytes;
        let [letter] = take(&mut rest)?;
        let entity = u32::from_be_bytes(take(&mut rest)?);
        let time = u64::from_be_bytes(take(&mut rest)?);
        let record = match letter {
            b'E' => Record::E { entity, time },
            b'S' => Record::S { entity, time },
            b'T' => Record::T { entity, time, previous: position(&mut rest)? },
            b'D' => Record::D { entity, time, kind: kind(&mut rest)?, source: position(&mut rest)? },
            b'V' => {
                let kind = kind(&mut rest)?;
                Record::V { entity, time, kind, previous: position(&mut rest)?, source: position(&mut rest)? }
            }
            _ => return None,
        };
        Some((record, rest))
    }
}

fn take<const N: usize>(bytes: &mut &[u8]) -> Option<[u8; N]> {
    let (first, rest) = bytes.split_first_chunk()?;
    *bytes = rest;
    Some(*first)
}

fn kind(bytes: &mut &[u8]) -> Option<u8> {
    take::<1>(bytes).map(|[kind]| kind)
}

fn position(bytes: &mut &[u8]) -> Option<usize> {
    take(bytes).map(|position| u32::from_be_bytes(position) as usize)
}

/// The checked records of an answer, by rising time. Only [`checked`](crate::checked) makes one, from bytes that the check accepted; so every
/// record is whole, its positions are below its own, and the iterator never panics.
#[derive(Clone, Debug)]
pub struct Records<'a> {
    bytes: &'a [u8],
    left: usize,
}

impl<'a> Records<'a> {
    /// Checked records, and how many they are.
    pub(crate) fn new(bytes: &'a [u8], left: usize) -> Self {
        Records { bytes, left }
    }

    /// The records that are left, as that part of the answer.
    pub fn as_bytes(&self) -> &'a [u8] {
        self.bytes
    }
}

impl Iterator for Records<'_> {
    type Item = Record;

    fn next(&mut self) -> Option<Record> {
        if self.bytes.is_empty() {
            return None;
        }
        let (record, rest) = Record::split_first(self.bytes).expect("checked records are whole");
        (self.bytes, self.left) = (rest, self.left - 1);
        Some(record)
    }

    fn size_hint(&self) -> (usize, Option<usize>) {
        (self.left, Some(self.left))
    }
}

impl ExactSizeIterator for Records<'_> {}

impl FusedIterator for Records<'_> {}

#[cfg(test)]
mod tests {
    use super::*;
    use reference::forge::{d, e, record, s, t, v};

    const FAR: u64 = u64::MAX;

    fn each() -> [(Vec<u8>, Record); 5] {
        [
            (e(1, 10), Record::E { entity: 1, time: 10 }),
            (s(u32::MAX, FAR), Record::S { entity: u32::MAX, time: FAR }),
            (t(2, 30, 4), Record::T { entity: 2, time: 30, previous: 4 }),
            (d(1, 40, 8, 1), Record::D { entity: 1, time: 40, kind: 8, source: 1 }),
            (v(2, FAR, 255, 1, 65_534), Record::V { entity: 2, time: FAR, kind: 255, previous: 1, source: 65_534 }),
        ]
    }

    #[test]
    fn each_letter_has_its_fields() {
        for (bytes, expected) in each() {
            assert_eq!(Record::split_first(&bytes), Some((expected, &[][..])));
            assert_eq!(Record::split_first(&[&bytes[..], b"X"].concat()), Some((expected, &b"X"[..])));
        }
    }

    #[test]
    fn bytes_that_begin_with_no_record_are_none() {
        for (bytes, expected) in each() {
            for length in 0..bytes.len() {
                assert_eq!(Record::split_first(&bytes[..length]), None, "{expected:?}, {length}");
            }
        }
        assert_eq!(Record::split_first(&record(b'X', 1, 10, None, &[])), None);
    }

    #[test]
    fn each_letter_shows_its_edges() {
        let shown = each().map(|(_, record)| record.edges().map(|edge| (edge.start, edge.kind)).collect::<Vec<_>>());
        assert_eq!(shown, [vec![], vec![], vec![(4, None)], vec![(1, Some(8))], vec![(1, None), (65_534, Some(255))]]);
    }

    #[test]
    fn records_come_one_by_one() {
        let bytes: Vec<u8> = each().into_iter().flat_map(|(bytes, _)| bytes).collect();
        let mut records = Records::new(&bytes, 5);
        for (left, (own, expected)) in (0..5).rev().zip(each()) {
            assert_eq!(&records.as_bytes()[..own.len()], own);
            assert_eq!(records.next(), Some(expected));
            assert_eq!(records.len(), left);
            assert_eq!((expected.entity(), expected.time()), (entity(&own), time(&own)));
        }
        assert_eq!((records.next(), records.as_bytes()), (None, &[][..]));
    }

    fn entity(record: &[u8]) -> u32 {
        u32::from_be_bytes(record[1..5].try_into().unwrap())
    }

    fn time(record: &[u8]) -> u64 {
        u64::from_be_bytes(record[5..13].try_into().unwrap())
    }
}
