//! The memory that calls need.

use crate::Direction;

/// A log and a trace have at most this many records.
pub const MOST_RECORDS: usize = 65_535;

/// What the listing program prints has at most this many bytes.
pub const MOST_LISTING: usize = 65_536;

/// Bytes of a digest, and so of a commitment.
pub const DIGEST: usize = 32;

/// Document 01's widths of an answer's strings, of its trace's header, and of a trace's shortest and longest record.
const R: usize = 65;
const P_OR_N: usize = 97;
const G: usize = 57;
const L: usize = 77;
const HEADER: usize = 5;
const SHORTEST_RECORD: usize = 13;
const LONGEST_RECORD: usize = 22;

/// The bytes of a version in a list, and the most versions that one can have, which is one more than any log's.
pub(crate) const VERSION: usize = 12;
const MOST_LISTED: usize = 65_536;

/// The bytes of work area that so many records need: of the log in `commitment` and `answer`, of the trace in `check`, `records` and `checked`. One less is row 12.
pub const fn work_length(records: usize) -> usize {
    128 * records
}

/// A work area for that many records.
pub fn work_area(records: usize) -> Vec<u8> {
    vec![0; work_length(records)]
}

/// A work area for the check of an answer: for as many records as an answer of its length has room for, and no more than a trace may have.
/// A trace that claims more records than that is refused in any case, by row 12 or an earlier one.
pub fn work_for(answer: &[u8]) -> Vec<u8> {
    work_area((answer.len() / SHORTEST_RECORD).min(MOST_RECORDS))
}

/// The bytes of memory that a recorder of so many records needs: 512 for each of them, and 512 before them. With fewer the last record meets row 26.
pub const fn recorder_length(records: usize) -> usize {
    512 + 512 * records
}

/// Memory for a recorder of that many records, of which more than [`MOST_RECORDS`] are of no use.
pub fn recorder_memory(records: usize) -> Vec<u8> {
    vec![0; recorder_length(records)]
}

/// An output for the list of an answer's check: for as many versions as an answer of its length has room for.
pub fn list_for(answer: &[u8]) -> Vec<u8> {
    vec![0; VERSION * (answer.len() / L).min(MOST_LISTED)]
}

/// The output that `answer` may need: no answer to a question of that direction, about a log of that many records, has more bytes. Without a
/// trace some log has an answer of this length; with one the bound takes the first record for the shortest and all others for the longest, and
/// is above what is written by as much as they are shorter. The exact length is what `answer` gives.
pub fn most_answer(direction: Direction, records: usize) -> usize {
    let records = records.clamp(1, MOST_RECORDS);
    let proof = R + G + L + P_OR_N * most_depth(records);
    match direction.way() {
        None => proof,
        Some(_) => proof + HEADER + SHORTEST_RECORD + LONGEST_RECORD * (records - 1),
    }
}

/// The output that `answer_span` may need: some log of that many records has an answer of this length, and none a longer one. It has all versions
/// of an entity that has as many as it can, beside one other entity that feeds it.
pub fn most_span_answer(records: usize) -> usize {
    let records = records.clamp(1, MOST_RECORDS);
    let entities = records.min(2);
    let versions = records + 1 - entities;
    R + P_OR_N * depth(entities) + G + L * versions + P_OR_N * (versions - 1)
}

/// The most P and N strings that lead to a version in a log of that many records. So many entities and versions of one of them share one
/// record, its birth: together they are one more than the records.
fn most_depth(records: usize) -> usize {
    let entities = 1..=records;
    entities.map(|entities| depth(entities) + depth(records + 1 - entities)).max().unwrap_or(0)
}

/// The depth of the deepest leaf of a tree with that many leaves.
fn depth(leaves: usize) -> usize {
    leaves.next_power_of_two().trailing_zeros() as usize
}

#[cfg(test)]
mod tests {
    use super::*;
    use crate::{Span, DIRECTIONS};
    use reference::host::Host;
    use reference::log::Record;
    use reference::random::{self, Random};
    use reference::Question;

    /// So many births, then flows to entity 0 up to that many records.
    fn births_then_flows(births: usize, records: usize) -> Vec<Record> {
        let birth = |place: usize| Record::Birth { entity: place as u32, time: place as u64 };
        let flow = |place: usize| Record::Flow { source: 1, destination: 0, kind: 7, time: place as u64 };
        (0..births).map(birth).chain((births..records).map(flow)).collect()
    }

    #[test]
    fn without_a_trace_the_bound_is_met() {
        for direction in [Direction::VersionOnly, Direction::VersionOnlyAfter] {
            let asked = Question::new(direction.number(), 0, 0);
            for records in 1..=70 {
                let length = |births| Host::new(&births_then_flows(births, records)).answer(&asked).len();
                let longest = (records.min(2)..=records).map(length).max();
                assert_eq!(longest, Some(most_answer(direction, records)), "{records} records");
            }
        }
    }

    #[test]
    fn the_bound_of_a_span_is_met() {
        let all = Question::between(0, 0, u64::MAX);
        for records in 1..=70 {
            let length = |births| Host::new(&births_then_flows(births, records)).answer(&all).len();
            let longest = (records.min(2)..=records).map(length).max();
            assert_eq!(longest, Some(most_span_answer(records)), "{records} records");
        }
        assert_eq!(most_span_answer(MOST_RECORDS), 65 + 97 + 57 + 77 * 65_534 + 97 * 65_533);
        assert_eq!(most_span_answer(usize::MAX), most_span_answer(MOST_RECORDS));
        assert_eq!(most_span_answer(0), most_span_answer(1));
    }

    #[test]
    fn a_list_has_12_bytes_a_version() {
        assert_eq!([0, 76, 77, 153, 154].map(|length| list_for(&vec![0; length]).len()), [0, 0, 12, 12, 24]);
        assert_eq!(list_for(&vec![0; 77 * 65_537]).len(), 12 * 65_536);
    }

    #[test]
    fn no_answer_is_longer() {
        let mut random = Random::new(411);
        for round in 0..3_000 {
            let records = random::sound_records(&mut random, 30);
            let host = Host::new(&records);
            for direction in DIRECTIONS {
                let question = random::question_of(&mut random, &records, direction.number());
                let (length, most) = (host.answer(&question).len(), most_answer(direction, records.len()));
                assert!(length <= most, "round {round}: {length} bytes, {question:?}");
            }
            let span = random::question_of(&mut random, &records, Span::DIRECTION);
            assert!(host.answer(&span).len() <= most_span_answer(records.len()), "round {round}: {span:?}");
        }
    }

    #[test]
    fn the_most_records_have_31_strings_above_a_leaf() {
        assert_eq!(most_answer(Direction::VersionOnly, MOST_RECORDS), 3_206);
        assert_eq!(most_answer(Direction::Backward, MOST_RECORDS), 3_206 + 5 + 13 + 22 * 65_534);
        assert_eq!(most_answer(Direction::Forward, usize::MAX), most_answer(Direction::Forward, MOST_RECORDS));
        assert_eq!(most_answer(Direction::VersionOnly, 0), most_answer(Direction::VersionOnly, 1));
        let before_and_after = DIRECTIONS.map(|direction| most_answer(direction, MOST_RECORDS));
        assert_eq!(before_and_after[..3], before_and_after[3..]);
    }

    #[test]
    fn work_areas_have_128_bytes_a_record() {
        assert_eq!((work_length(3), work_area(3).len()), (384, 384));
        assert_eq!([0, 12, 13, 25, 26].map(|length| work_for(&vec![0; length]).len()), [0, 0, 128, 128, 256]);
        assert_eq!(work_for(&vec![0; 13 * MOST_RECORDS + 13]).len(), 128 * MOST_RECORDS);
    }

    #[test]
    fn a_recorder_has_512_bytes_a_record_and_512_before() {
        assert_eq!([0, 1, MOST_RECORDS].map(recorder_length), [512, 1_024, 33_554_432]);
        for records in [0, 1, 7] {
            assert_eq!(recorder_memory(records).len(), recorder_length(records));
            assert_eq!(reference::recorder::capacity(recorder_length(records)), records);
        }
    }
}
