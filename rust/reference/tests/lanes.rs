//! Strings hashed side by side against each by itself, and what is built of their digests.

mod common;

use common::oracle::Oracle;
use reference::graph::{incoming_digests_by, outgoing_digests_by, Graph};
use reference::hash::{Hash, OneByOne, H};
use reference::host::Host;
use reference::lanes::{digests, LANES};
use reference::log::{write, Record};
use reference::random::{known_question, records_of_length, Random};
use reference::sample::{births, in_turn, one_source};
use reference::sha256::{sha256, Digest};

/// Random strings, in every number that leaves another number of lanes idle.
fn same_as_each_by_itself<const N: usize>(random: &mut Random) {
    for count in 0..=2 * LANES + 1 {
        let strings: Vec<[u8; N]> = (0..count).map(|_| random.bytes(N).try_into().expect("as many bytes")).collect();
        let expected: Vec<Digest> = strings.iter().map(|string| sha256(string)).collect();
        assert_eq!(digests(&strings), expected, "{count} strings of {N} bytes");
        assert_eq!(H.of_all(&strings), expected);
        assert_eq!(OneByOne.of_all(&strings), expected);
    }
}

/// The lengths of the strings that are hashed so, and those where the padding takes another form.
#[test]
fn side_by_side_is_each_by_itself() {
    let mut random = Random::new(31);
    macro_rules! lengths {
        ($($length:literal)*) => { $(same_as_each_by_itself::<$length>(&mut random);)* };
    }
    lengths!(0 1 2 31 54 55 56 57 60 63 64 65 77 97 118 119 120 127 128 183 184 191 192 200);
}

fn path_digests(hash: &mut impl Hash, records: &[Record]) -> [Vec<Digest>; 2] {
    let versions = Graph::new(records).versions;
    [incoming_digests_by(hash, &versions), outgoing_digests_by(hash, &versions)]
}

/// Path digests and commitment are the defined ones, and the answers those of each string hashed by itself.
fn builds_the_same(random: &mut Random, records: &[Record]) {
    let oracle = Oracle::new(&write(records));
    let commitment = oracle.commitment();
    let digests = [oracle.incoming, oracle.outgoing];
    assert_eq!(path_digests(&mut H, records), digests, "{records:?}");
    assert_eq!(path_digests(&mut OneByOne, records), digests, "{records:?}");
    let (host, alone) = (Host::new(records), Host::by(&mut OneByOne, records));
    assert_eq!(host.commitment(), commitment, "{records:?}");
    assert_eq!(alone.commitment_by(&mut OneByOne), commitment, "{records:?}");
    for _ in 0..4 {
        let question = known_question(random, records);
        assert_eq!(host.answer(&question), alone.answer_by(&mut OneByOne, &question), "{question:?} {records:?}");
    }
}

#[test]
fn random_logs_build_the_same() {
    let mut random = Random::new(32);
    for length in (1..=60).chain([100, 300]) {
        for _ in 0..8 {
            let records = records_of_length(&mut random, length);
            builds_the_same(&mut random, &records);
        }
    }
}

/// Each flow starts where the one before it ends, or all flows start at births.
#[test]
fn logs_of_one_kind_build_the_same() {
    let mut random = Random::new(33);
    for length in 2..=40 {
        for records in [births(length), one_source(length), in_turn(length), all_to_others(length)] {
            builds_the_same(&mut random, &records);
        }
    }
}

/// As many births as flows; the flows go from one entity to each other.
fn all_to_others(entities: usize) -> Vec<Record> {
    let flow = |n: u32| Record::Flow { source: 0, destination: n, kind: n as u8, time: (entities as u32 + n).into() };
    births(entities).into_iter().chain((1..entities as u32).map(flow)).collect()
}
