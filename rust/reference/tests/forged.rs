//! Commitments that need not be a log's: nothing is promised of them but the
//! rows and verdicts that the rules give.

mod common;

use common::*;
use reference::forge::{
    full_tree, group, known, leaf, long_proof, node, opened, opened_node, proof, proof_of_tree, record, root, trace, Fitting, Opened,
};
use reference::random::{damaged_answer, forged, Random};
use reference::sha256::sha256;
use reference::{BETWEEN, DIRECTIONS};

#[test]
fn own_keys_are_not_compared() {
    // G's entity is 7 in every byte, L's name is 5 at 500; neither is what is asked.
    let l = leaf(5, 500, &[1; 32], &[2; 32]);
    let g = group(&known(3, 3, &l));
    let Fitting { commitment, answer: bytes } = proof(&[root(&known(1, 1, &g)), g, l]);
    assert_eq!(check(ask(0, 1, 4), &commitment, &bytes), accepted(3, 500, 0));
    assert_eq!(check(ask(0, 1, 2), &commitment, &bytes), refused(18, 122));
    assert_eq!(check(ask(0, 2, 4), &commitment, &bytes), refused(18, 65));
    assert_eq!(check(ask(3, 1, 2), &commitment, &bytes), accepted(3, 500, 0));
    assert_eq!(check(ask(3, 1, 4), &commitment, &bytes), refused(18, 122));
    assert_eq!(check(ask(3, 2, 2), &commitment, &bytes), refused(18, 65));
}

#[test]
fn keys_are_64_bits_wide() {
    let l = leaf(5, 500, &[1; 32], &[2; 32]);
    let g = group(&known(3, 3, &l));
    let Fitting { commitment, answer: bytes } = proof(&[root(&known((1 << 32) + 1, (1 << 32) + 1, &g))]);
    assert_eq!(check(ask(0, 1, 4), &commitment, &bytes), accepted(1, 0, 0));
}

/// R and G, whose tree has any keys, an N over subtrees with any keys, and the two Ls there, at 500 and 600.
struct Forked {
    commitment: [u8; 32],
    top: Vec<u8>,
    n: Vec<u8>,
    leaves: [Vec<u8>; 2],
}

type Keys = (u64, u64);

fn forked(top: Keys, left: Keys, right: Keys) -> Forked {
    let leaves = [500, 600].map(|time| leaf(5, time, &[1; 32], &[2; 32]));
    let n = node(b'N', &known(left.0, left.1, &leaves[0]), &known(right.0, right.1, &leaves[1]));
    let g = group(&known(top.0, top.1, &n));
    let Fitting { commitment, answer } = proof(&[root(&known(1, 1, &g)), g]);
    Forked { commitment, top: answer, n, leaves }
}

impl Forked {
    /// The strings after G that are opened for a question, and the verdict with its time. No other strings are accepted.
    fn at(&self, direction: u8, time: u64) -> (&'static str, (u64, u64)) {
        let [left, right] = &self.leaves;
        let opened = [("", vec![]), ("N", self.n.clone()), ("NL", [&self.n[..], left].concat()), ("NL", [&self.n[..], right].concat())];
        let accepted: Vec<_> = opened
            .into_iter()
            .map(|(letters, strings)| (letters, check(ask(direction, 1, time), &self.commitment, &[&self.top[..], &strings].concat())))
            .filter(|(_, checked)| checked.number == 0)
            .map(|(letters, checked)| (letters, (checked.verdict, checked.time)))
            .collect();
        let [verdict] = accepted[..] else { panic!("{direction}, {time}: {accepted:?}") };
        verdict
    }
}

const NOT_YET: u64 = 2;
const FOUND: u64 = 3;
const NONE_SO_LATE: u64 = 4;

/// Subtrees that leave a gap to the keys above them: the walk stops below N with that subtree's key, which is not the one known at G.
#[test]
fn stops_below_n() {
    let forked = forked((2, 30), (8, 8), (20, 20));
    for direction in 0..3 {
        assert_eq!(forked.at(direction, 1), ("", (NOT_YET, 2)));
        assert_eq!(forked.at(direction, 2), ("N", (NOT_YET, 8)));
        assert_eq!(forked.at(direction, 7), ("N", (NOT_YET, 8)));
    }
    assert_eq!(forked.at(0, 8), ("NL", (FOUND, 500)));
    assert_eq!(forked.at(0, u64::MAX), ("NL", (FOUND, 600)));
    for direction in 3..6 {
        assert_eq!(forked.at(direction, 21), ("N", (NONE_SO_LATE, 20)));
        assert_eq!(forked.at(direction, 30), ("N", (NONE_SO_LATE, 20)));
        assert_eq!(forked.at(direction, 31), ("", (NONE_SO_LATE, 30)));
    }
    assert_eq!(forked.at(3, 20), ("NL", (FOUND, 600)));
    assert_eq!(forked.at(3, 0), ("NL", (FOUND, 500)));
}

/// A least key above the greatest means N. Each relation looks at one of the two for its stop.
#[test]
fn crossed_keys() {
    let crossed = forked((3, 2), (8, 8), (9, 9));
    assert_eq!(crossed.at(0, 2), ("", (NOT_YET, 3)));
    assert_eq!(crossed.at(0, 3), ("N", (NOT_YET, 8)));
    assert_eq!(crossed.at(0, 8), ("NL", (FOUND, 500)));
    assert_eq!(crossed.at(3, 2), ("NL", (FOUND, 500)));
    assert_eq!(crossed.at(3, 3), ("", (NONE_SO_LATE, 2)));
    // Below N too: no letter but N is due there, and it is not given.
    let below = forked((1, 9), (7, 4), (8, 5));
    assert_eq!(below.at(0, 6), ("N", (NOT_YET, 7)));
    assert_eq!(below.at(3, 6), ("N", (NONE_SO_LATE, 5)));
    let cut = [&below.top[..], &below.n].concat();
    assert_eq!(check(ask(0, 1, 7), &below.commitment, &cut), refused(15, cut.len()));
    assert_eq!(check(ask(3, 1, 4), &below.commitment, &cut), refused(15, cut.len()));
    // In the tree of entities no entity lies within crossed keys.
    let Fitting { commitment, answer: bytes } = proof(&[root(&known(3, 2, b""))]);
    for entity in 0..5 {
        for direction in 0..6 {
            assert_eq!(check(ask(direction, entity, 4), &commitment, &bytes), accepted(1, 0, 0));
        }
    }
}

/// At N each relation looks at its own key alone: the right's least, or the left's greatest.
#[test]
fn the_key_that_decides_at_n() {
    let rising = forked((0, 99), (5, 5), (7, 7));
    assert_eq!([5, 6, 7, 8].map(|time| rising.at(0, time).1), [500, 500, 600, 600].map(|time| (FOUND, time)));
    assert_eq!([4, 5, 6, 7].map(|time| rising.at(3, time).1), [500, 500, 600, 600].map(|time| (FOUND, time)));
    // The right's least key sends 5 to 8 right, the left's greatest sends 4 to 7 left.
    let falling = forked((0, 99), (7, 7), (5, 5));
    assert_eq!([5, 6, 7, 8].map(|time| falling.at(0, time).1), [(FOUND, 600); 4]);
    assert_eq!([4, 5, 6, 7].map(|time| falling.at(3, time).1), [(FOUND, 500); 4]);
}

#[test]
fn long_walks() {
    let l = leaf(1, 6, &sha256(&[0x49, 0]), &[2; 32]);
    let Fitting { commitment, answer: bytes } = proof(&long_proof(20_000, l));
    let traced = [bytes.clone(), trace(b'B', &[record(b'E', 1, 6, None, &[])])].concat();
    for (only, backward, time) in [(0, 1, 7), (3, 4, 5)] {
        assert_eq!(check(ask(only, 1, time), &commitment, &bytes), accepted(3, 6, 0));
        assert_eq!(check(ask(backward, 1, time), &commitment, &traced), accepted(3, 6, 1));
        assert_eq!(check(ask(only, 1, time), &commitment, &bytes[..bytes.len() - 1]), refused(15, bytes.len() - 77));
    }
}

/// The check of a span from 3 to 7 of entity 1, with just enough output.
fn listed(fitting: &Fitting) -> (reference::Checked, Vec<u8>) {
    let q = between(1, 3, 7);
    let checked = check_with(q, &fitting.commitment, &fitting.answer, 0);
    list_with(q, &fitting.commitment, &fitting.answer, 0, 12 * checked.count as usize)
}

/// An L string of any name.
fn named(entity: u32, time: u64) -> Vec<u8> {
    leaf(entity, time, &[1; 32], &[2; 32])
}

/// The list has what the L strings say: other names than the keys, outside the span, not by rising time, and one of them twice.
#[test]
fn a_list_is_what_the_leaves_say() {
    let [first, second] = [opened(7, 7, &named(9, 500)), opened(3, 3, &named(0, 2))];
    let pair = opened_node(0, 99, &first, &second);
    let tree = opened_node(4, 4 + (1 << 40), &pair, &opened_node(7, 3, &second, &first));
    let list = [entry(9, 500), entry(0, 2), entry(0, 2), entry(9, 500)].concat();
    assert_eq!(listed(&proof_of_tree(1, &tree)), (accepted(5, 0, 4), list));
}

/// The keys decide what is opened: equal ones for L, others for N, none that lie off the span. Crossed ones meet a span that holds both.
#[test]
fn the_keys_that_a_span_meets() {
    let leaf = |key| opened(key, key, &named(1, key));
    let closed = |tree: Opened| Opened { strings: Vec::new(), ..tree };
    let mut expected = Vec::new();
    let mut tree = leaf(5);
    expected.push(5);
    for key in [3, 7, 2, 8, 0, u64::MAX] {
        let inside = (3..=7).contains(&key);
        let other = if inside { leaf(key) } else { closed(leaf(key)) };
        tree = opened_node(2, 6, &other, &tree);
        if inside {
            expected.insert(0, key);
        }
    }
    let list: Vec<u8> = expected.iter().flat_map(|key| entry(1, *key)).collect();
    assert_eq!(listed(&proof_of_tree(1, &tree)), (accepted(5, 0, 3), list));
    for (least, greatest) in [(8, 9), (0, 2), (8, 2), (8, 5), (5, 2)] {
        let off = closed(Opened { known: known(least, greatest, b"N"), strings: Vec::new() });
        assert_eq!(listed(&proof_of_tree(1, &off)).0, accepted(5, 0, 0));
        let below = opened_node(3, 4, &off, &off);
        assert_eq!(listed(&proof_of_tree(1, &below)).0, accepted(5, 0, 0));
    }
    let crossed = Opened { known: known(7, 3, b"N"), strings: Vec::new() };
    assert_eq!(listed(&proof_of_tree(1, &crossed)).0, refused(15, 122));
}

/// A tree with that many N strings down to a subtree, which stands on the right.
fn chain(nodes: usize, last: &Opened) -> Opened {
    let off = Opened { known: known(0, 0, b""), strings: Vec::new() };
    (0..nodes).fold(last.clone(), |tree, _| opened_node(0, 9, &off, &tree))
}

/// Sixteen N strings on a path are the most; below them an L is due where the keys are equal, and else no letter.
#[test]
fn the_seventeenth_n() {
    let l = opened(5, 5, &named(1, 5));
    for nodes in [0, 1, 15, 16] {
        assert_eq!(listed(&proof_of_tree(1, &chain(nodes, &l))), (accepted(5, 0, 1), entry(1, 5)));
    }
    let start = 122 + 16 * 97;
    assert_eq!(listed(&proof_of_tree(1, &chain(17, &l))).0, refused(16, start));
    let Fitting { commitment, answer } = proof_of_tree(1, &chain(17, &l));
    assert_eq!(check(between(1, 3, 7), &commitment, &answer[..start]), refused(15, start));
    for letter in 0..=255 {
        assert_eq!(check(between(1, 3, 7), &commitment, &[&answer[..start], &[letter]].concat()), refused(16, start));
    }
    // On a path that the span does not meet there may be any number.
    assert_eq!(check(between(1, 10, 12), &commitment, &answer[..122]), accepted(5, 0, 0));
    // In another direction too.
    assert_eq!(check(ask(0, 1, 5), &commitment, &answer), accepted(3, 5, 0));
}

#[test]
fn as_many_leaves_as_there_can_be() {
    let l = named(1, 5);
    let fitting = proof_of_tree(1, &full_tree(16, &l));
    let (checked, list) = listed(&fitting);
    assert_eq!((checked, list), (accepted(5, 0, 65_536), entry(1, 5).repeat(65_536)));
    let short = list_with(between(1, 3, 7), &fitting.commitment, &fitting.answer, 0, 12 * 65_536 - 1);
    assert_eq!(short.0, refused(13, 0));
    let more = [&fitting.answer[..], b"L"].concat();
    assert_eq!(list_with(between(1, 3, 7), &fitting.commitment, &more, 0, 0).0, refused(18, fitting.answer.len()));
}

#[test]
fn both_edges_of_one_record_from_one_start() {
    // V with equal positions: in O the temporal part goes first.
    let edge = |kind: &[u8]| -> Vec<u8> {
        [kind, &1u32.to_be_bytes(), &5u64.to_be_bytes(), &2u32.to_be_bytes(), &6u64.to_be_bytes()].concat()
    };
    let none = sha256(&[0x4f, 0, 0, 0, 0]);
    let o = [&[0x4f, 0, 0, 0, 2][..], &edge(&[0, 0]), &none, &edge(&[1, 9]), &none].concat();
    let entry = sha256(&[0x49, 0]);
    let i = [&[0x49, 2][..], &edge(&[0, 0]), &entry, &edge(&[1, 9]), &entry].concat();
    for (directions, l, header, letter, time) in [
        ([2, 5], leaf(1, 5, &[0; 32], &sha256(&o)), b'F', b'S', 5),
        ([1, 4], leaf(2, 6, &sha256(&i), &[0; 32]), b'B', b'E', 6),
    ] {
        let g = group(&known(3, 3, &l));
        let Fitting { commitment, answer: bytes } = proof(&[root(&known(1, 1, &g)), g, l]);
        let records = [record(letter, 1, 5, None, &[]), record(b'V', 2, 6, Some(9), &[0, 0])];
        let bytes = [bytes, trace(header, &records)].concat();
        for direction in directions {
            assert_eq!(check(ask(direction, 1, 3), &commitment, &bytes), accepted(3, time, 2));
        }
    }
}

#[test]
fn generated_forgeries() {
    let mut random = Random::new(10);
    let mut seen = [0; 25];
    let mut deep = 0;
    let mut verdicts = [[0; 6]; DIRECTIONS as usize];
    for _ in 0..40_000 {
        let forged = forged(&mut random);
        let checked = check_with(forged.question, &forged.commitment, &forged.answer, 128 * 6);
        seen[checked.number as usize] += 1;
        verdicts[forged.question.direction as usize][checked.verdict as usize] += 1;
        // The proof strings always fit, but for a seventeenth N; the trace decides.
        let is_span = forged.question.direction == BETWEEN;
        assert!(matches!((is_span, checked.number), (false, 0 | 15 | 19..=24) | (true, 0 | 16)), "{checked:?}");
        deep += usize::from(checked.number == 16);
        let bytes = damaged_answer(&mut random, &forged.answer);
        let damaged = check_with(forged.question, &forged.commitment, &bytes, 128 * 6);
        seen[damaged.number as usize] += 1;
    }
    for number in [0, 12, 15, 16, 17, 18, 19, 20, 21, 22, 23, 24] {
        assert!(seen[number] > 20, "row {number}: {seen:?}");
    }
    for (direction, seen) in verdicts.iter().enumerate() {
        let due: &[usize] = match direction {
            0..3 => &[1, 2, 3],
            3..6 => &[1, 3, 4],
            _ => &[1, 5],
        };
        assert!(due.iter().all(|verdict| seen[*verdict] > 500), "{direction}: {seen:?}");
    }
    assert!(deep > 50, "{deep}");
}
