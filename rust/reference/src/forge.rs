//! Strings, traces and answers written by hand, for tests: they need not be a log's.

use crate::check::decode_record;
use crate::graph::{incoming_digests, outgoing_digests, Name, Version};
use crate::question::{Question, Way};
use crate::sha256::{sha256, Digest};
use crate::trace::{found_place, record_letter, record_width, trace_letter, HEADER};
use crate::tree::{leaf_string, Subtree, GROUP, LEAF, NODE, ROOT};

/// A trace record: letter, entity, time, then the bytes of the rest.
pub fn record(letter: u8, entity: u32, time: u64, kind: Option<u8>, positions: &[u32]) -> Vec<u8> {
    let mut bytes = vec![letter];
    bytes.extend_from_slice(&entity.to_be_bytes());
    bytes.extend_from_slice(&time.to_be_bytes());
    bytes.extend(kind);
    for position in positions {
        bytes.extend_from_slice(&position.to_be_bytes());
    }
    bytes
}

pub fn e(entity: u32, time: u64) -> Vec<u8> {
    record(b'E', entity, time, None, &[])
}

pub fn s(entity: u32, time: u64) -> Vec<u8> {
    record(b'S', entity, time, None, &[])
}

pub fn t(entity: u32, time: u64, position: u32) -> Vec<u8> {
    record(b'T', entity, time, None, &[position])
}

pub fn d(entity: u32, time: u64, kind: u8, position: u32) -> Vec<u8> {
    record(b'D', entity, time, Some(kind), &[position])
}

pub fn v(entity: u32, time: u64, kind: u8, previous: u32, source: u32) -> Vec<u8> {
    record(b'V', entity, time, Some(kind), &[previous, source])
}

/// The trace of some records, with their number as its count.
pub fn trace(letter: u8, records: &[Vec<u8>]) -> Vec<u8> {
    trace_with_count(letter, records.len() as u32, records)
}

pub fn trace_with_count(letter: u8, count: u32, records: &[Vec<u8>]) -> Vec<u8> {
    [&[letter][..], &count.to_be_bytes(), &records.concat()].concat()
}

/// The records that show versions and their edges, whatever the positions.
pub fn records_of(way: Way, versions: &[Version]) -> Vec<Vec<u8>> {
    versions.iter().map(|version| record_of(way, version)).collect()
}

fn record_of(way: Way, version: &Version) -> Vec<u8> {
    let letter = record_letter(way, version.temporal.is_some(), version.dependency.is_some());
    let source = version.dependency.map(|edge| edge.source);
    let positions: Vec<u32> = version.temporal.into_iter().chain(source).map(|position| position as u32).collect();
    record(letter, version.name.entity, version.name.time, version.dependency.map(|edge| edge.kind), &positions)
}

pub fn trace_of(way: Way, versions: &[Version]) -> Vec<u8> {
    trace(trace_letter(way), &records_of(way, versions))
}

/// All positions are below the record's own.
pub fn fits(versions: &[Version]) -> bool {
    versions.iter().enumerate().all(|(own, version)| {
        version.temporal.is_none_or(|start| start < own)
            && version.dependency.is_none_or(|edge| edge.source < own)
    })
}

/// A subtree's 48 bytes with any keys.
pub fn known(least: u64, greatest: u64, string: &[u8]) -> Vec<u8> {
    Subtree { least, greatest, digest: sha256(string) }.bytes().to_vec()
}

/// N or P over two subtrees' bytes.
pub fn node(letter: u8, left: &[u8], right: &[u8]) -> Vec<u8> {
    [&[letter], left, right].concat()
}

/// R with numbers that no log has.
pub fn root(tree: &[u8]) -> Vec<u8> {
    [&b"R"[..], &[9; 16], tree].concat()
}

/// G with an entity that nobody asks for.
pub fn group(tree: &[u8]) -> Vec<u8> {
    [&b"G"[..], &[7; 8], tree].concat()
}

pub fn leaf(entity: u32, time: u64, incoming: &Digest, outgoing: &Digest) -> Vec<u8> {
    leaf_string(Name { entity, time }, incoming, outgoing).to_vec()
}

/// A commitment, and an answer whose proof strings fit it.
#[derive(Clone, Debug)]
pub struct Fitting {
    pub commitment: Digest,
    pub answer: Vec<u8>,
}

/// The proof strings, top down, as an answer with its commitment.
pub fn proof(strings: &[Vec<u8>]) -> Fitting {
    Fitting { commitment: sha256(&strings[0]), answer: strings.concat() }
}

/// R, G and a given L, whose keys are what is asked.
pub fn proof_of_leaf(question: &Question, l: Vec<u8>) -> Fitting {
    let g = group(&known(question.time, question.time, &l));
    let entity = u64::from(question.entity);
    proof(&[root(&known(entity, entity, &g)), g, l])
}

/// R, G and an L with the name and the path digests that a trace of any versions shows, if their positions fit. A trace is asked for.
pub fn proof_of_found(question: &Question, versions: &[Version]) -> Fitting {
    let found = found_place(way_of(question), versions.len());
    let Name { entity, time } = versions[found].name;
    let (incoming, outgoing) = (incoming_digests(versions)[found], outgoing_digests(versions)[found]);
    proof_of_leaf(question, leaf(entity, time, &incoming, &outgoing))
}

/// The same, with the trace.
pub fn proof_of_trace(question: &Question, versions: &[Version]) -> Fitting {
    let mut fitting = proof_of_found(question, versions);
    fitting.answer.extend(trace_of(way_of(question), versions));
    fitting
}

fn way_of(question: &Question) -> Way {
    question.way().expect("a question with a trace")
}

/// A proof for 1 at 5 of `depth` P strings and as many N strings, whose last is the given L. A question at or before a later time opens it too.
pub fn long_proof(depth: usize, l: Vec<u8>) -> Vec<Vec<u8>> {
    let mut top = known(5, 5, &l);
    let mut strings = vec![l];
    for _ in 0..depth {
        let n = node(b'N', &known(0, 4, b""), &top);
        top = known(0, 5, &n);
        strings.push(n);
    }
    let g = group(&top);
    top = known(1, 1, &g);
    strings.push(g);
    for _ in 0..depth {
        let p = node(b'P', &top, &known(2, 2, b""));
        top = known(1, 2, &p);
        strings.push(p);
    }
    strings.push(root(&top));
    strings.reverse();
    strings
}

/// A subtree's 48 bytes, and its strings in preorder.
#[derive(Clone, Debug)]
pub struct Opened {
    pub known: Vec<u8>,
    pub strings: Vec<u8>,
}

/// A string that nothing is opened below, with any keys.
pub fn opened(least: u64, greatest: u64, string: &[u8]) -> Opened {
    Opened { known: known(least, greatest, string), strings: string.to_vec() }
}

/// An N with any keys over two subtrees, all of them opened.
pub fn opened_node(least: u64, greatest: u64, left: &Opened, right: &Opened) -> Opened {
    let n = node(b'N', &left.known, &right.known);
    Opened { known: known(least, greatest, &n), strings: [&n, &left.strings[..], &right.strings].concat() }
}

/// R and G over an entity's tree, for a question about that entity.
pub fn proof_of_tree(entity: u32, tree: &Opened) -> Fitting {
    let (g, key) = (group(&tree.known), u64::from(entity));
    let Fitting { commitment, mut answer } = proof(&[root(&known(key, key, &g)), g]);
    answer.extend_from_slice(&tree.strings);
    Fitting { commitment, answer }
}

/// A tree with that many N strings on every path, all of whose leaves are one L with the key 5. The keys above them are 0 and 9.
pub fn full_tree(depth: usize, l: &[u8]) -> Opened {
    (0..depth).fold(opened(5, 5, l), |tree, _| opened_node(0, 9, &tree, &tree))
}

/// The pieces of a whole answer, each known by its letter.
#[derive(Clone, Debug)]
pub struct Pieces {
    pub strings: Vec<Vec<u8>>,
    /// None without a trace.
    pub header: Option<Vec<u8>>,
    pub records: Vec<Vec<u8>>,
}

impl Pieces {
    /// The answer again.
    pub fn bytes(&self) -> Vec<u8> {
        [&self.strings[..], self.header.as_slice(), &self.records].concat().concat()
    }
}

pub fn pieces(answer: &[u8]) -> Pieces {
    let mut strings = Vec::new();
    let mut rest = answer;
    while let Some(&letter) = rest.first() {
        let (piece, after) = rest.split_at(width(letter).expect("a piece's letter"));
        strings.push(piece.to_vec());
        rest = after;
    }
    let end = strings.iter().position(|piece| b"BF".contains(&piece[0])).unwrap_or(strings.len());
    let mut trace = strings.split_off(end).into_iter();
    Pieces { strings, header: trace.next(), records: trace.collect() }
}

/// The width of a piece by its letter.
fn width(letter: u8) -> Option<usize> {
    Some(match letter {
        b'R' => ROOT,
        b'P' | b'N' => NODE,
        b'G' => GROUP,
        b'L' => LEAF,
        b'B' | b'F' => HEADER,
        _ => return record_width(letter),
    })
}

/// The versions that whole records show.
pub fn versions_of(records: &[Vec<u8>]) -> Vec<Version> {
    records.iter().map(|record| decode_record(record)).collect()
}
