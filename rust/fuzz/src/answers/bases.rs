//! Answers before any change: true ones, and ones that fit a commitment that no log has.

use reference::edit::edit;
use reference::forge::{e, fits, full_tree, leaf, long_proof, pieces, proof_of_trace, proof_of_tree, s, trace, versions_of, Pieces};
use reference::host::Host;
use reference::log::MOST_RECORDS;
use reference::random::{self, Random};
use reference::sha256::sha256;
use reference::{Question, Way, BETWEEN};

use crate::answers::defined;
use crate::answers::posed::Posed;
use crate::logs;

pub fn any(random: &mut Random) -> Posed {
    match random.below(8) {
        0 | 1 => forged(random),
        2 => long(random),
        3 if random.once_in(4) => full(random),
        3 => fitted(random),
        _ => honest(random),
    }
}

/// The defined answer about a sound log, with a trace or of a span more often than not.
pub fn honest(random: &mut Random) -> Posed {
    let records =
        if random.once_in(10_000) { random::records_of_length(random, MOST_RECORDS) } else { logs::sound(random) };
    let host = Host::new(&records);
    let answered = |random: &mut Random| {
        let question = random::question(random, &records);
        (question, pieces(&defined(&host, &question)))
    };
    let beside = Some(answered(random).1);
    let mut last = answered(random);
    for _ in 0..2 {
        let is_kept = last.1.header.is_some() || last.0.direction == BETWEEN && random.once_in(2);
        if !is_kept {
            last = answered(random);
        }
    }
    let (question, pieces) = last;
    Posed { question, commitment: host.commitment().to_vec(), pieces, beside }
}

/// Trees of any keys, and a trace of any edges.
fn forged(random: &mut Random) -> Posed {
    let random::Forged { question, commitment, answer } = random::forged(random);
    Posed { question, commitment: commitment.to_vec(), pieces: pieces(&answer), beside: None }
}

/// A deep walk to a version without edges; at or after, and in a span from it on, all of it is opened at 5 alone.
fn long(random: &mut Random) -> Posed {
    let time = if random.once_in(2) { 5 } else { 5 + random.below(3) };
    let question = Question { until: time + random.below(3), ..Question::new(random::known_direction(random), 1, time) };
    let time = random.below(9);
    let depth = if random.once_in(100) { random.index(2_000) } else { random.index(40) };
    let (incoming, outgoing) = (sha256(&[0x49, 0]), sha256(&[0x4f, 0, 0, 0, 0]));
    let strings = long_proof(depth, leaf(1, time, &incoming, &outgoing));
    let commitment = sha256(&strings[0]).to_vec();
    let trace = match question.way() {
        Some(Way::Backward) => trace(b'B', &[e(1, time)]),
        Some(Way::Forward) => trace(b'F', &[s(1, time)]),
        None => Vec::new(),
    };
    Posed { question, commitment, pieces: Pieces { strings, ..pieces(&trace) }, beside: None }
}

/// A span of a tree that is full, all of whose leaves are one: up to the most that a list can have, and one N more on each path.
fn full(random: &mut Random) -> Posed {
    let depth = if random.once_in(2_000) { 15 + random.index(3) } else { random.index(7) };
    let (entity, time) = (random.below(3) as u32, random.below(9));
    let fitting = proof_of_tree(1, &full_tree(depth, &leaf(entity, time, &[1; 32], &[2; 32])));
    let question = Question::between(1, random.below(6), 5 + random.below(6));
    Posed { question, commitment: fitting.commitment.to_vec(), pieces: pieces(&fitting.answer), beside: None }
}

/// What an honest trace shows after some changes, under a commitment made for it.
fn fitted(random: &mut Random) -> Posed {
    let posed = honest(random);
    let mut versions = versions_of(&posed.pieces.records);
    if versions.is_empty() {
        return posed;
    }
    for _ in 0..random.index(3) {
        edit(random, &mut versions);
    }
    if !fits(&versions) {
        return posed;
    }
    let fitting = proof_of_trace(&posed.question, &versions);
    Posed { commitment: fitting.commitment.to_vec(), pieces: pieces(&fitting.answer), ..posed }
}
