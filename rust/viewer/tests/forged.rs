//! The exported check under commitments that no log has, against the Rust version: nothing is promised of them but the rows and verdicts
//! that the rules give.

mod common;

use common::*;
use reference::edit::edit;
use reference::forge::{e, fits, group, known, leaf, long_proof, node, proof, proof_of_found, proof_of_leaf, proof_of_trace};
use reference::forge::{full_tree, opened, opened_node, proof_of_tree, root, s, trace, trace_of, Fitting, Opened};
use reference::graph::{Dependency, Name, Version};
use reference::random::{self, Random};
use reference::sha256::sha256;
use reference::trace::found_place;
use reference::{Question, Verdict, DIRECTIONS};

const WORK: usize = 128 * 16;
const MOST: usize = 65_535;

fn check_fitting(question: Question, fitting: &Fitting, work: usize) -> Checked {
    check(&question, &fitting.commitment, &fitting.answer, work)
}

#[test]
fn own_keys_are_not_compared() {
    // G's entity is 7 in every byte, L's name is 5 at 500; neither is what is asked
    let l = leaf(5, 500, &[1; 32], &[2; 32]);
    let fitting = proof_of_leaf(&ask(0, 1, 3), l);
    assert_eq!(check_fitting(ask(0, 1, 4), &fitting, 0), found(500, 0));
    assert_eq!(check_fitting(ask(0, 1, 2), &fitting, 0), refused(18, 122));
    assert_eq!(check_fitting(ask(0, 2, 4), &fitting, 0), refused(18, 65));
    assert_eq!(check_fitting(ask(3, 1, 2), &fitting, 0), found(500, 0));
    assert_eq!(check_fitting(ask(3, 1, 4), &fitting, 0), refused(18, 122));
    assert_eq!(check_fitting(ask(3, 2, 2), &fitting, 0), refused(18, 65));
}

#[test]
fn keys_beyond_32_bits() {
    let g = group(&known(3, 3, &leaf(5, 500, &[1; 32], &[2; 32])));
    let high = (1 << 32) + 1;
    let above = proof(&[root(&known(high, high, &g))]);
    assert_eq!(check_fitting(ask(0, 1, 4), &above, 0), Ok(Verdict::NoEntity));
    // the greatest entity lies below the greatest key
    let p = node(b'P', &known(0, u64::MAX - 1, &g), &known(u64::MAX, u64::MAX, &g));
    let around = proof(&[root(&known(0, u64::MAX, &p)), p]);
    assert_eq!(check_fitting(ask(0, u32::MAX, 4), &around, 0), refused(15, 162));
}

/// R, G whose tree is known by the first keys, and an N; then the two Ls below it, at 500 and 600.
fn forked(top: (u64, u64), left: u64, right: u64) -> (Fitting, [Vec<u8>; 2]) {
    let leaves = [500, 600].map(|time| leaf(5, time, &[1; 32], &[2; 32]));
    let n = node(b'N', &known(left, left, &leaves[0]), &known(right, right, &leaves[1]));
    let g = group(&known(top.0, top.1, &n));
    (proof(&[root(&known(1, 1, &g)), g, n]), leaves)
}

fn followed_by(fitting: &Fitting, string: &[u8]) -> Fitting {
    Fitting { answer: [&fitting.answer[..], string].concat(), ..fitting.clone() }
}

fn up_to_g(fitting: &Fitting) -> Fitting {
    Fitting { answer: fitting.answer[..122].to_vec(), ..fitting.clone() }
}

/// The walk stops below N, and reports the key that is known there and not the one known at G.
#[test]
fn stops_below_n() {
    let (fitting, [left, right]) = forked((2, 30), 8, 20);
    for direction in 0..3 {
        assert_eq!(check_fitting(ask(direction, 1, 1), &up_to_g(&fitting), 0), Ok(Verdict::NotYet { first: 2 }));
        assert_eq!(check_fitting(ask(direction, 1, 2), &fitting, 0), Ok(Verdict::NotYet { first: 8 }));
        assert_eq!(check_fitting(ask(direction, 1, 7), &fitting, 0), Ok(Verdict::NotYet { first: 8 }));
    }
    for direction in 3..6 {
        assert_eq!(check_fitting(ask(direction, 1, 21), &fitting, 0), Ok(Verdict::NoneSoLate { last: 20 }));
        assert_eq!(check_fitting(ask(direction, 1, 30), &fitting, 0), Ok(Verdict::NoneSoLate { last: 20 }));
        assert_eq!(check_fitting(ask(direction, 1, 31), &up_to_g(&fitting), 0), Ok(Verdict::NoneSoLate { last: 30 }));
    }
    for (direction, stopped, opened, string, time) in [(0, 7, 8, left, 500), (3, 21, 20, right, 600)] {
        let longer = followed_by(&fitting, &string);
        assert_eq!(check_fitting(ask(direction, 1, stopped), &longer, 0), refused(18, fitting.answer.len()));
        assert_eq!(check_fitting(ask(direction, 1, opened), &longer, 0), found(time, 0));
    }
}

/// At N the right's least key decides, or looking ahead the left's greatest, and no other.
#[test]
fn the_key_that_decides_at_n() {
    for (left_key, right_key, direction, time, expected) in [
        (5, 7, 0, 6, 500),
        (5, 7, 0, 7, 600),
        (5, 7, 3, 5, 500),
        (5, 7, 3, 6, 600),
        // in falling order both ways are open to 6
        (7, 5, 0, 6, 600),
        (7, 5, 3, 6, 500),
    ] {
        let (fitting, leaves) = forked((0, 99), left_key, right_key);
        let question = ask(direction, 1, time);
        for (leaf, own) in leaves.iter().zip([500, 600]) {
            let checked = check_fitting(question, &followed_by(&fitting, leaf), 0);
            let due = if own == expected { found(own, 0) } else { refused(17, fitting.answer.len()) };
            assert_eq!(checked, due, "{question:?}: {left_key}, {right_key}");
        }
    }
}

#[test]
fn least_above_greatest() {
    // in an entity's tree this means N, and each relation looks at one of the two keys
    let (fitting, [left, _]) = forked((3, 2), 8, 9);
    assert_eq!(check_fitting(ask(0, 1, 4), &fitting, 0), Ok(Verdict::NotYet { first: 8 }));
    assert_eq!(check_fitting(ask(0, 1, 8), &followed_by(&fitting, &left), 0), found(500, 0));
    assert_eq!(check_fitting(ask(3, 1, 2), &followed_by(&fitting, &left), 0), found(500, 0));
    assert_eq!(check_fitting(ask(0, 1, 2), &up_to_g(&fitting), 0), Ok(Verdict::NotYet { first: 3 }));
    assert_eq!(check_fitting(ask(3, 1, 3), &up_to_g(&fitting), 0), Ok(Verdict::NoneSoLate { last: 2 }));
    // in the tree of entities no entity lies between them
    let fitting = proof(&[root(&known(3, 2, b""))]);
    for entity in 0..5 {
        for direction in 0..6 {
            assert_eq!(check_fitting(ask(direction, entity, 4), &fitting, 0), Ok(Verdict::NoEntity));
        }
    }
}

/// Thousands of strings to walk: accepted, and refused at the string that is altered or cut.
#[test]
fn long_walks() {
    const DEPTH: usize = 3_000;
    let strings = long_proof(DEPTH, leaf(1, 6, &sha256(&[0x49, 0]), &sha256(&[0x4f, 0, 0, 0, 0])));
    assert_eq!(strings.len(), 2 * DEPTH + 3);
    let fitting = proof(&strings);
    for (only, time) in [(0, 7), (3, 5)] {
        assert_eq!(check_fitting(ask(only, 1, time), &fitting, 0), found(6, 0));
        for (way, trace) in [(1, trace(b'B', &[e(1, 6)])), (2, trace(b'F', &[s(1, 6)]))] {
            let traced = [&fitting.answer[..], &trace].concat();
            assert_eq!(check(&ask(only + way, 1, time), &fitting.commitment, &traced, 128), found(6, 1));
        }
    }
    for index in [1, 17, 32, 33, DEPTH, DEPTH + 1, DEPTH + 2, 2 * DEPTH, 2 * DEPTH + 2] {
        let start = strings[..index].concat().len();
        let mut bytes = fitting.answer.clone();
        bytes[start + 9] ^= 1;
        assert_eq!(check(&ask(0, 1, 7), &fitting.commitment, &bytes, 0), refused(17, start));
        for length in [start, start + 1, start + 56] {
            assert_eq!(check(&ask(0, 1, 7), &fitting.commitment, &bytes[..length], 0), refused(15, start));
        }
    }
}

/// An L of any name, with any key.
fn opened_leaf(key: u64, entity: u32, time: u64) -> Opened {
    opened(key, key, &leaf(entity, time, &[1; 32], &[2; 32]))
}

/// A subtree that is known and not opened.
fn closed(least: u64, greatest: u64) -> Opened {
    Opened { known: known(least, greatest, b""), strings: Vec::new() }
}

/// A list has what the opened L strings say, in turn: other names than the keys, outside the span, not by rising time, one of them twice.
#[test]
fn a_list_is_what_the_leaves_say() {
    let [first, second] = [opened_leaf(7, 9, 500), opened_leaf(3, 0, 2)];
    let pair = opened_node(0, 99, &first, &second);
    let tree = opened_node(4, u64::MAX, &pair, &opened_node(7, 3, &second, &first));
    let fitting = proof_of_tree(1, &tree);
    assert_eq!(check_fitting(between(1, 3, 7), &fitting, 0), listed(&[(9, 500), (0, 2), (0, 2), (9, 500)]));
}

/// A subtree is opened if its least key is at most the later time and its greatest at least the earlier, whatever stands above it.
#[test]
fn the_keys_that_a_span_meets() {
    for (least, greatest) in [(8, 9), (0, 2), (8, 2), (8, 5), (5, 2), (u64::MAX, 0)] {
        let off = closed(least, greatest);
        assert_eq!(check_fitting(between(1, 3, 7), &proof_of_tree(1, &off), 0), listed(&[]));
        let below = opened_node(3, 4, &off, &off);
        assert_eq!(check_fitting(between(1, 3, 7), &proof_of_tree(1, &below), 0), listed(&[]));
        let beside = opened_node(7, 99, &off, &opened_leaf(7, 1, 7));
        assert_eq!(check_fitting(between(1, 3, 7), &proof_of_tree(1, &beside), 0), listed(&[(1, 7)]));
    }
    for (least, greatest) in [(7, 3), (7, 9), (0, 3), (0, u64::MAX)] {
        assert_eq!(check_fitting(between(1, 3, 7), &proof_of_tree(1, &closed(least, greatest)), 0), refused(15, 122));
    }
}

/// So many N strings down to a subtree.
fn path(nodes: usize, last: &Opened) -> Opened {
    (0..nodes).fold(last.clone(), |tree, _| opened_node(0, 9, &closed(0, 0), &tree))
}

/// Sixteen N on a path are the most. Below them an L is fine, and where the keys differ no letter is due.
#[test]
fn the_seventeenth_n() {
    for nodes in [0, 1, 15, 16] {
        let fitting = proof_of_tree(1, &path(nodes, &opened_leaf(5, 1, 5)));
        assert_eq!(check_fitting(between(1, 3, 7), &fitting, 0), listed(&[(1, 5)]));
    }
    let fitting = proof_of_tree(1, &path(17, &opened_leaf(5, 1, 5)));
    let start = 122 + 16 * 97;
    assert_eq!(check_fitting(between(1, 3, 7), &fitting, 0), refused(16, start));
    for letter in 0..=255 {
        let cut = [&fitting.answer[..start], &[letter]].concat();
        assert_eq!(check(&between(1, 3, 7), &fitting.commitment, &cut, 0), refused(16, start));
    }
    assert_eq!(check(&between(1, 3, 7), &fitting.commitment, &fitting.answer[..start], 0), refused(15, start));
    // a span that meets none of them, and a question for one version
    assert_eq!(check_fitting(between(1, 10, 12), &up_to_g(&fitting), 0), listed(&[]));
    assert_eq!(check_fitting(ask(0, 1, 5), &fitting, 0), found(5, 0));
}

/// One more than any log has.
#[test]
fn a_list_of_65536() {
    let fitting = proof_of_tree(1, &full_tree(16, &leaf(1, 5, &[1; 32], &[2; 32])));
    assert_eq!(check_fitting(between(1, 3, 7), &fitting, 0), listed(&[(1, 5); 65_536]));
    let more = followed_by(&fitting, b"L");
    assert_eq!(check_fitting(between(1, 3, 7), &more, 0), refused(18, fitting.answer.len()));
}

/// Versions that each show both edges from the one before.
fn both_from_the_one_before(count: usize) -> Vec<Version> {
    let name = |own: usize| Name { entity: own as u32 % 3, time: own as u64 };
    let edges = |own: usize| own.checked_sub(1).map(|source| Dependency { kind: own as u8, source });
    (0..count).map(|own| Version { name: name(own), temporal: own.checked_sub(1), dependency: edges(own) }).collect()
}

/// A V with equal positions passes if the digest under the commitment is its own.
#[test]
fn both_edges_from_one_start() {
    for (direction, count) in [(1, 2), (2, 2), (1, 9), (2, 9), (4, 9), (5, 9), (1, MOST), (2, MOST)] {
        let versions = both_from_the_one_before(count);
        let question = ask(direction, 1, 4);
        let mut fitting = proof_of_trace(&question, &versions);
        let time = versions[found_place(way(&question), count)].name.time;
        assert_eq!(check_fitting(question, &fitting, 128 * count), found(time, count as u64));
        assert_eq!(check_fitting(question, &fitting, 128 * count - 1), refused(12, 0));
        // the two edges have one end, but not one kind
        let kind = fitting.answer.len() - 9;
        fitting.answer[kind] ^= 1;
        assert_eq!(check_fitting(question, &fitting, 128 * count).unwrap_err().number, 24);
    }
}

/// One version with an edge to each of the others, up to the most, and two to each second one.
#[test]
fn one_start_of_the_most_edges() {
    let star = |own: usize| Version {
        name: Name { entity: 7, time: 10 + own as u64 },
        temporal: (own > 0 && own.is_multiple_of(2)).then_some(0),
        dependency: (own > 0).then_some(Dependency { kind: 1, source: 0 }),
    };
    let versions: Vec<Version> = (0..MOST).map(star).collect();
    let question = ask(2, 1, 4);
    assert_eq!(check_fitting(question, &proof_of_trace(&question, &versions), 128 * MOST), found(10, MOST as u64));
}

/// What the trace of a random log's answer shows after some changes, under a commitment to the name and digest that it shows, or once in
/// four to those of another change.
fn edited_traces(seed: u64, direction: u8, rows: &[usize]) {
    let mut random = Random::new(seed);
    let mut met = Met::default();
    while met.total() < 60_000 {
        let Traced { asked, mut versions, .. } = any_traced(&mut random, direction, 10);
        (0..random.index(4)).for_each(|_| edit(&mut random, &mut versions));
        let mut committed = versions.clone();
        if random.once_in(4) {
            edit(&mut random, &mut committed);
        }
        if fits(&committed) {
            let mut fitting = proof_of_found(&asked.question, &committed);
            fitting.answer.extend(trace_of(way(&asked.question), &versions));
            met.add(&asked.question, &check_fitting(asked.question, &fitting, WORK));
        }
    }
    met.exactly(direction.into(), 20, rows);
    met.includes(direction.into(), 1_000, &[0, 16, 21, 24]);
}

#[test]
fn edited_traces_backward() {
    edited_traces(61, 1, &[0, 16, 20, 21, 22, 23, 24]);
    edited_traces(65, 4, &[0, 16, 20, 21, 22, 23, 24]);
}

#[test]
fn edited_traces_forward() {
    edited_traces(62, 2, &[0, 16, 20, 21, 23, 24]);
    edited_traces(66, 5, &[0, 16, 20, 21, 23, 24]);
}

/// Trees with arbitrary keys, and traces with arbitrary edges; then the same damaged.
fn generated(seed: u64) {
    let mut random = Random::new(seed);
    let (mut whole, mut damaged) = (Met::default(), Met::default());
    let mut given = Given::default();
    for _ in 0..80_000 {
        let forged = random::forged(&mut random);
        let checked = check(&forged.question, &forged.commitment, &forged.answer, 128 * 6);
        whole.add(&forged.question, &checked);
        if let Ok(verdict) = checked {
            given.add(&forged.question, &verdict);
        }
        let bytes = random::damaged_answer(&mut random, &forged.answer);
        damaged.add(&forged.question, &check(&forged.question, &forged.commitment, &bytes, 128 * 6));
    }
    // the proof strings always fit, and the trace decides
    for (only, backward, forward) in [(0, 1, 2), (3, 4, 5)] {
        whole.exactly(only, 1_000, &[0]);
        whole.exactly(backward, 10, &[0, 19, 20, 21, 22, 23, 24]);
        whole.exactly(forward, 10, &[0, 19, 20, 21, 23, 24]);
        damaged.exactly(only, 10, &[15, 16, 17, 18]);
        damaged.includes(backward, 10, &[12, 15, 16, 17, 18, 19, 20, 21, 22, 23, 24]);
        damaged.includes(forward, 10, &[12, 15, 16, 17, 18, 19, 20, 21, 23, 24]);
    }
    // but for a seventeenth N
    whole.exactly(6, 20, &[0, 16]);
    damaged.exactly(6, 10, &[15, 16, 17, 18]);
    given.each(0..DIRECTIONS, 500);
}

#[test]
fn generated_trees() {
    generated(63);
}

#[test]
fn more_generated_trees() {
    generated(64);
}
