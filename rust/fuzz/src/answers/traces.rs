//! Changes of traces: of what the records show, and of their bytes.

use reference::edit::{any_count, edit, edit_letter};
use reference::forge::{records_of, trace_with_count, versions_of};
use reference::graph::Version;
use reference::random::Random;
use reference::trace::{record_width, trace_letter};
use reference::Way;

use crate::answers::posed::Posed;

/// The way of the trace that is asked for; any, if none is.
fn way(posed: &Posed) -> Way {
    posed.question.way().unwrap_or(Way::Forward)
}

/// One change of a trace that has records.
pub fn edit_trace(random: &mut Random, posed: &mut Posed) {
    let letter = trace_letter(way(posed));
    let trace = &mut posed.pieces;
    match random.below(8) {
        0 => trace.header = Some(trace_with_count(letter, any_count(random, trace.records.len()), &[])),
        1 => trace.header = Some(trace_with_count(b"BFR"[random.index(3)], trace.records.len() as u32, &[])),
        2 => edit_letter(random, &mut trace.records),
        3 => edit_bytes(random, &mut trace.records),
        _ => edit_shown(random, posed),
    }
}

/// A record cut, extended, or with one bit altered.
fn edit_bytes(random: &mut Random, records: &mut [Vec<u8>]) {
    let at = random.index(records.len());
    let record = &mut records[at];
    match random.below(4) {
        0 if record.len() > 1 => drop(record.pop()),
        1 => record.push(random.byte()),
        _ => {
            let place = random.index(record.len());
            record[place] ^= 1 << random.below(8);
        }
    }
}

/// One or two changes of the versions and edges shown; count and positions follow.
fn edit_shown(random: &mut Random, posed: &mut Posed) {
    if !posed.pieces.records.iter().all(|record| is_whole(record)) {
        return edit_bytes(random, &mut posed.pieces.records);
    }
    let way = way(posed);
    let shown = versions_of(&posed.pieces.records);
    let mut versions = edited(random, &shown);
    for _ in 0..3 {
        if !letters_are_due(way, &versions) {
            versions = edited(random, &shown);
        }
    }
    posed.pieces.records = records_of(way, &versions);
    posed.pieces.header = Some(trace_with_count(trace_letter(way), versions.len() as u32, &[]));
}

fn edited(random: &mut Random, shown: &[Version]) -> Vec<Version> {
    let mut versions = shown.to_vec();
    for _ in 0..1 + random.index(2) {
        edit(random, &mut versions);
    }
    versions
}

/// The records of these versions do not meet row 16, which would hide what comes after it.
fn letters_are_due(way: Way, versions: &[Version]) -> bool {
    versions.iter().enumerate().all(|(own, version)| match (version.temporal, version.dependency) {
        (None, None) => way == Way::Backward || own == 0,
        (Some(_), Some(_)) => way == Way::Backward || own > 0,
        _ => way == Way::Forward && own > 0,
    })
}

/// A change may have left a record without the width of its letter.
fn is_whole(record: &[u8]) -> bool {
    record_width(record[0]) == Some(record.len())
}
