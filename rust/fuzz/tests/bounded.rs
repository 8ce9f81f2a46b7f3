//! A bounded number of cases: no case differs, and they reach every row, every verdict and every call.

mod walker;

use calls::{proved, Fields, Memory, Name, NAMES};
use fuzz::case::Case;
use fuzz::tally::Tally;
use reference::{Question, BETWEEN, NONE_SO_LATE, NOT_YET};
use walker::Walker;

const SEED: u64 = 1;
const CASES: u64 = 32_000;

fn run(seed: u64, cases: u64, library: impl Fn(Name, &Question, Memory) -> Fields + Copy) -> Result<Tally, String> {
    let mut tally = Tally::default();
    for index in 0..cases {
        Case { seed, index }.run(library, &mut tally)?;
    }
    Ok(tally)
}

/// The rows that a call can meet, and 0: going through.
fn rows(name: Name) -> Vec<usize> {
    let log = 1..=9;
    match name {
        Name::Hash | Name::Listing => vec![0, 13],
        Name::Log => (0..=9).collect(),
        Name::Commitment => [0].into_iter().chain(log).chain([12, 13]).collect(),
        Name::Answer => [0].into_iter().chain(log).chain([11, 12, 13, 25]).collect(),
        Name::Check => [0].into_iter().chain(11..=25).collect(),
        Name::Records => vec![0],
        Name::RecorderStart => vec![0, 26],
        // row 2 takes 65,535 records, and is met in the viewer's tests
        Name::RecorderTake => [0].into_iter().chain(3..=9).chain([18, 26]).collect(),
        Name::RecorderCommitment => vec![0, 1, 13],
    }
}

/// Every exported call is listed, once. The header has them as the library's source does, which a test of the viewer sees to.
#[test]
fn every_exported_call_is_listed_once() {
    let header = include_str!("../../../include/bozhtagul.h");
    let declared = header.lines().filter(|line| line.starts_with("struct bozhtagul_") && line.ends_with('('));
    let mut declared: Vec<&str> = declared.filter_map(|line| line.split(" bozhtagul_").last()?.strip_suffix('(')).collect();
    let mut listed: Vec<String> = NAMES.iter().map(|name| name.word()).collect();
    declared.sort_unstable();
    listed.sort_unstable();
    assert_eq!(listed, declared);
    assert!(NAMES.iter().all(|name| Name::of_word(&name.word()) == Some(*name)));
}

#[test]
fn no_case_differs_and_all_is_reached() {
    let tally = run(SEED, CASES, proved).unwrap_or_else(|difference| panic!("{difference}"));
    assert_eq!(tally.cases, CASES);
    for name in NAMES {
        assert!(tally.calls(name) > 3_000, "{name:?}: {} calls", tally.calls(name));
        assert_eq!(tally.rows_of(name), rows(name), "{name:?}");
    }
    assert_eq!(tally.rows(), (1..=26).filter(|row| *row != 10).collect::<Vec<_>>());
    // no entity, not yet and found in directions 0 to 2; no entity, found and none so late in directions 3 to 5; no entity and listed in 6
    let given: [&[usize]; 7] = [&[1, 2, 3], &[1, 2, 3], &[1, 2, 3], &[1, 3, 4], &[1, 3, 4], &[1, 3, 4], &[1, 5]];
    for (direction, verdicts) in given.into_iter().enumerate() {
        for verdict in 1..=5 {
            let times = tally.verdicts(direction, verdict);
            let enough = if verdicts.contains(&verdict) { times > 20 } else { times == 0 };
            assert!(enough, "direction {direction}, verdict {verdict}\n{tally}");
        }
    }
    assert!(tally.with_records() > 500 && tally.with_list() > 200, "{tally}");
}

/// Leaves the last byte of the work area as it was.
fn keeps_a_byte(name: Name, question: &Question, memory: Memory) -> Fields {
    let Memory { commitment, input, work, out } = memory;
    let last = work.last().copied();
    let fields = proved(name, question, Memory { commitment, input, work: &mut *work, out });
    if let (Some(byte), Some(last)) = (work.last_mut(), last) {
        *byte = last;
    }
    fields
}

/// Writes a byte of an output that is too short.
fn writes_though_refused(name: Name, question: &Question, memory: Memory) -> Fields {
    let Memory { commitment, input, work, out } = memory;
    let fields = proved(name, question, Memory { commitment, input, work, out: &mut *out });
    if let (Some(byte), 13) = (out.first_mut(), fields.get("number")) {
        *byte ^= 1;
    }
    fields
}

/// Does not know row 22.
fn takes_22_for_24(name: Name, question: &Question, memory: Memory) -> Fields {
    let mut fields = proved(name, question, memory);
    if fields.get("number") == 22 {
        fields.set("number", 24);
    }
    fields
}

/// Takes an even time for the next odd one.
fn asks_for_another_time(name: Name, question: &Question, memory: Memory) -> Fields {
    proved(name, &Question { time: question.time | 1, ..*question }, memory)
}

/// Takes at or after for at or before.
fn looks_back_only(name: Name, question: &Question, memory: Memory) -> Fields {
    let direction = if question.direction < BETWEEN { question.direction % 3 } else { question.direction };
    proved(name, &Question { direction, ..*question }, memory)
}

/// Keeps the time of a stop with that number to itself.
fn without_time(stop: u64, name: Name, question: &Question, memory: Memory) -> Fields {
    let mut fields = proved(name, question, memory);
    if fields.get("verdict") == stop {
        fields.set("time", 0);
    }
    fields
}

/// Writes to the output of a check without a list.
fn touches_the_output(name: Name, question: &Question, memory: Memory) -> Fields {
    let Memory { commitment, input, work, out } = memory;
    let fields = proved(name, question, Memory { commitment, input, work, out: &mut *out });
    if let (Name::Check, 2, Some(byte)) = (name, question.direction, out.first_mut()) {
        *byte ^= 1;
    }
    fields
}

/// Meets row 25 in a direction that has no later time.
fn looks_at_until(name: Name, question: &Question, memory: Memory) -> Fields {
    let mut fields = proved(name, question, memory);
    if (name, question.direction) == (Name::Check, 1) && question.time > question.until {
        fields.names().iter().for_each(|field| fields.set(field, 0));
        fields.set("number", 25);
    }
    fields
}

/// Meets row 14 before row 25.
fn looks_at_the_commitment_first(name: Name, question: &Question, memory: Memory) -> Fields {
    let is_short = memory.commitment.len() != 32;
    let mut fields = proved(name, question, memory);
    if name == Name::Check && fields.get("number") == 25 && is_short {
        fields.set("number", 14);
    }
    fields
}

/// Leaves the later end of a span out.
fn excludes_until(name: Name, question: &Question, memory: Memory) -> Fields {
    let until = question.until.saturating_sub(u64::from(question.until > question.time));
    proved(name, &Question { until, ..*question }, memory)
}

/// Writes a byte of a recorder's memory though the record is refused.
fn changes_the_memory_though_refused(name: Name, question: &Question, memory: Memory) -> Fields {
    let Memory { commitment, input, work, out } = memory;
    let fields = proved(name, question, Memory { commitment, input, work: &mut *work, out });
    if let (Name::RecorderTake, Some(byte)) = (name, work.last_mut().filter(|_| fields.get("number") > 0)) {
        *byte ^= 1;
    }
    fields
}

/// Gives no place left before bytes after a record.
fn looks_at_the_place_first(name: Name, question: &Question, memory: Memory) -> Fields {
    let full = memory.work.get(..4).is_some_and(|count| count == ((memory.work.len() - 512) as u32 / 512).to_be_bytes());
    let mut fields = proved(name, question, memory);
    if (name, fields.get("number"), full) == (Name::RecorderTake, 18, true) {
        fields.set("number", 26);
        fields.set("position", 0);
    }
    fields
}

/// Takes an empty record for the log's end.
fn takes_empty_for_the_end(name: Name, question: &Question, memory: Memory) -> Fields {
    let empty = memory.input.is_empty();
    let mut fields = proved(name, question, memory);
    if name == Name::RecorderTake && empty {
        fields.set("number", 1);
    }
    fields
}

/// Takes a part of 512 bytes that is not whole for a place.
fn takes_part_of_a_place(name: Name, question: &Question, memory: Memory) -> Fields {
    let Memory { commitment, input, work, out } = memory;
    if name == Name::RecorderTake && work.len() > 512 && work.len() % 512 > 400 {
        let mut longer = work.to_vec();
        longer.resize(work.len().next_multiple_of(512), 0);
        let fields = proved(name, question, Memory { commitment, input, work: &mut longer, out });
        work.copy_from_slice(&longer[..work.len()]);
        return fields;
    }
    proved(name, question, Memory { commitment, input, work, out })
}

/// What a take leaves, with some bytes of each slot of a table as they were before it.
fn keeps_columns(table: usize, columns: std::ops::Range<usize>, name: Name, question: &Question, memory: Memory) -> Fields {
    let Memory { commitment, input, work, out } = memory;
    let before = work.to_vec();
    let fields = proved(name, question, Memory { commitment, input, work: &mut *work, out });
    if name == Name::RecorderTake && work.len() > 1_024 {
        let slots = (work.len() - 512) / 512;
        // the slot that came into use is as the call left it
        let taken = u32::from_be_bytes(before[if table < 2 { 4 } else { 8 }..][..4].try_into().expect("four bytes")) as usize;
        for slot in 0..taken.min(slots) {
            let place = 512 + 128 * (table * slots + slot);
            work[place + columns.start..place + columns.end].copy_from_slice(&before[place + columns.start..place + columns.end]);
        }
    }
    fields
}

/// The checks of spans as the walker makes them, and all other calls as they are.
fn walked(walker: Walker, name: Name, question: &Question, memory: Memory) -> Fields {
    match (name, question.direction) {
        (Name::Check, BETWEEN) => walker.check(question, memory),
        _ => proved(name, question, memory),
    }
}

/// A right walker is not told apart, so that a wrong one is by what is wrong with it.
#[test]
fn a_right_walker_passes() {
    let right = |name: Name, question: &Question, memory: Memory| walked(Walker::RIGHT, name, question, memory);
    run(SEED, CASES, right).unwrap_or_else(|difference| panic!("{difference}"));
}

/// Wrong libraries, each nearly right: the same cases tell them from the proved one.
#[test]
fn wrong_libraries_are_told_apart() {
    const RIGHT: Walker = Walker::RIGHT;
    let wrong: [fn(Name, &Question, Memory) -> Fields; 23] = [
        keeps_a_byte,
        writes_though_refused,
        takes_22_for_24,
        asks_for_another_time,
        looks_back_only,
        |name, question, memory| without_time(NOT_YET, name, question, memory),
        |name, question, memory| without_time(NONE_SO_LATE, name, question, memory),
        touches_the_output,
        looks_at_until,
        looks_at_the_commitment_first,
        excludes_until,
        |name, question, memory| walked(Walker { by_keys: true, ..RIGHT }, name, question, memory),
        |name, question, memory| walked(Walker { right_first: true, ..RIGHT }, name, question, memory),
        |name, question, memory| walked(Walker { output_first: true, ..RIGHT }, name, question, memory),
        |name, question, memory| walked(Walker { nodes: 17, ..RIGHT }, name, question, memory),
        |name, question, memory| walked(Walker { nodes: 15, ..RIGHT }, name, question, memory),
        changes_the_memory_though_refused,
        looks_at_the_place_first,
        takes_empty_for_the_end,
        takes_part_of_a_place,
        // old outgoing digests; inner nodes of the versions' trees; leaves of the tree of entities
        |name, question, memory| keeps_columns(0, 32..64, name, question, memory),
        |name, question, memory| keeps_columns(1, 0..48, name, question, memory),
        |name, question, memory| keeps_columns(3, 48..96, name, question, memory),
    ];
    for (place, library) in wrong.into_iter().enumerate() {
        let difference = run(SEED, CASES, library).expect_err(&format!("wrong library {place} passes"));
        assert!(difference.contains("fuzz/run --seed 1 --case "), "{difference}");
    }
}

/// A case's number is enough to make it again, and another seed makes another.
#[test]
fn a_case_is_its_seed_and_index() {
    let text = |seed, index| format!("{:?}", Case { seed, index }.calls());
    for index in 0..200 {
        assert_eq!(text(SEED, index), text(SEED, index));
        assert_ne!(text(SEED, index), text(SEED + 1, index));
        assert_ne!(text(SEED, index), text(SEED, index + 1));
    }
}
