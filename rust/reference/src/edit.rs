//! Changes of what a trace shows, for tests: versions left out, doubled, put in, moved or altered, and edges likewise. The positions of
//! the other records follow, so that nothing else is changed.

use crate::graph::{Dependency, Name, Version};
use crate::random::Random;

/// One change at a random place.
pub fn edit(random: &mut Random, versions: &mut Vec<Version>) {
    let at = random.index(versions.len());
    match random.below(4) {
        0 => edit_list(random, versions, at),
        1 => edit_name(random, &mut versions[at].name),
        _ => edit_edges(random, &mut versions[at], at),
    }
}

/// A record left out, doubled or put in, two of them swapped, or all but the first ones or the last ones left out.
fn edit_list(random: &mut Random, versions: &mut Vec<Version>, at: usize) {
    let length = versions.len();
    match random.below(7) {
        0 if length > 1 => take_out(versions, at),
        1 => put_in(versions, at + 1, versions[at]),
        2 | 3 => {
            let idle = idle(random, versions, at);
            put_in(versions, at, idle);
        }
        4 => versions.swap(at, random.index(length)),
        5 => versions.truncate(at + 1),
        _ => (0..at).for_each(|_| take_out(versions, 0)),
    }
}

/// The record at a place is left out, and those that refer to it show another.
fn take_out(versions: &mut Vec<Version>, at: usize) {
    versions.remove(at);
    move_positions(versions, |position| if position > at { position - 1 } else { position });
}

fn put_in(versions: &mut Vec<Version>, at: usize, version: Version) {
    move_positions(versions, |position| if position >= at { position + 1 } else { position });
    versions.insert(at, version);
}

fn move_positions(versions: &mut [Version], moved: impl Fn(usize) -> usize) {
    for version in versions {
        version.temporal = version.temporal.map(&moved);
        version.dependency = version.dependency.map(|edge| Dependency { source: moved(edge.source), ..edge });
    }
}

/// A version that none refers to, with a time just below that of the record at its place; with edges of its own once in two.
fn idle(random: &mut Random, versions: &[Version], at: usize) -> Version {
    let time = versions[at].name.time.saturating_sub(1);
    let name = Name { entity: random.below(5) as u32, time };
    let mut version = Version { name, temporal: None, dependency: None };
    if at > 0 && random.once_in(2) {
        version.temporal = Some(random.index(at));
        version.dependency = Some(Dependency { kind: random.byte(), source: random.index(at) });
    }
    version
}

fn edit_name(random: &mut Random, name: &mut Name) {
    match random.below(4) {
        0 => name.entity ^= 1 << random.below(32),
        1 => name.time ^= 1 << random.below(64),
        2 => name.time = name.time.wrapping_add(1),
        _ => name.time = name.time.wrapping_sub(1),
    }
}

/// An edge left out or put in, its kind or its start altered; both edges from one start.
fn edit_edges(random: &mut Random, version: &mut Version, own: usize) {
    let position = any_position(random, own);
    match (random.below(6), version.temporal, &mut version.dependency) {
        (0, _, _) => version.temporal = None,
        (1, _, _) => version.dependency = None,
        (2, Some(start), Some(edge)) => edge.source = start,
        (3, _, Some(edge)) => edge.kind ^= 1 << random.below(8),
        (4, _, _) => version.temporal = Some(position),
        _ => version.dependency = Some(Dependency { kind: random.byte(), source: position }),
    }
}

/// A position below the record's own, at it, above it or the greatest.
fn any_position(random: &mut Random, own: usize) -> usize {
    match random.below(8) {
        0 => own,
        1 => own + 1 + random.index(3),
        2 => u32::MAX as usize,
        _ => random.index(own.max(1)),
    }
}

/// The letter of a record altered to another record's.
pub fn edit_letter(random: &mut Random, records: &mut [Vec<u8>]) {
    let at = random.index(records.len());
    records[at][0] = b"ESTDV"[random.index(5)];
}

/// The count of a trace header: mostly the number of records, else next to it or at a bound.
pub fn any_count(random: &mut Random, records: usize) -> u32 {
    match random.below(40) {
        0 => 0,
        1 => 65_536,
        2 => u32::MAX,
        3 => 65_535,
        4 => records as u32 + 1,
        5 => (records as u32).saturating_sub(1),
        _ => records as u32,
    }
}
