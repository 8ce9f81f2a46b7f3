//! The running recorder (request A4) against the one that rebuilds, after every offer.

use reference::graph::Graph;
use reference::hash::{Keeping, H};
use reference::host::{reaching, Host};
use reference::log::{write, Record, MOST_RECORDS};
use reference::offers::Offers;
use reference::places::{perfect_subtrees, promised, slots, table_start, Table, What, SLOT};
use reference::random::{sound_records, Random};
use reference::recorder::{capacity, Recorder, UNIT};
use reference::running;
use reference::sample::{birth, births, flow, in_turn, log_k, one_source};
use reference::sha256::sha256;
use reference::tree::{tree, Letter, Subtree};
use reference::{recorder_commitment, recorder_start, recorder_take, Outcome, Refusal};

fn outcome<T>(result: Result<T, Refusal>) -> Outcome {
    result.map_or_else(|Refusal { number, position }| Outcome { number, position }, |_| Outcome::default())
}

/// The recorder in memory, which held anything before the start, and the one that rebuilds.
struct Both {
    memory: Vec<u8>,
    rebuilt: Recorder,
}

impl Both {
    fn start(mut memory: Vec<u8>) -> Self {
        assert_eq!(recorder_start(&mut memory), Outcome::default());
        let rebuilt = Recorder::start(memory.len()).expect("enough memory");
        let both = Both { memory, rebuilt };
        both.compare();
        both
    }

    /// A start with memory for so many records.
    fn of(random: &mut Random, records: usize) -> Self {
        Both::start(random.bytes(UNIT * (records + 1)))
    }

    /// Offers a record, and compares result and memory.
    fn offer(&mut self, record: &[u8]) -> Outcome {
        let (before, last) = (self.memory.clone(), self.rebuilt.taken().len());
        let given = recorder_take(record, &mut self.memory);
        assert_eq!(given, outcome(self.rebuilt.take(record)), "{record:?} after {:?}", self.rebuilt.taken());
        if given.number == 0 {
            self.compare();
            self.only_those_that_reach_it_change(&before, last);
        } else {
            assert!(self.memory == before, "a refused record changes the memory");
        }
        given
    }

    fn offer_record(&mut self, record: Record) -> Outcome {
        self.offer(&write(&[record]))
    }

    /// All that is promised stands at its place, and the commitment is that of the log.
    fn compare(&self) {
        for item in promised(self.rebuilt.taken(), self.memory.len()) {
            assert!(item.is_in(&self.memory), "{:?} after {:?}", item.what, self.rebuilt.taken());
        }
        let mut out = [7; 40];
        let given = recorder_commitment(&self.memory, &mut out);
        let expected = self.rebuilt.commitment();
        assert_eq!(given, outcome(expected));
        assert_eq!(out[..32], expected.unwrap_or([7; 32]));
        assert_eq!(out[32..], [7; 8]);
    }

    /// Outgoing digests change exactly at the versions that reach the new one.
    fn only_those_that_reach_it_change(&self, before: &[u8], new: usize) {
        let reaching = reaching(&Graph::new(self.rebuilt.taken()).versions, new);
        for (version, reaches) in reaching.into_iter().enumerate().take(new) {
            let place = table_start(Table::Versions, before.len()) + SLOT * version;
            let digests = |memory: &[u8]| [&memory[place..place + 32], &memory[place + 32..place + 64]].map(<[u8]>::to_vec);
            let ([incoming, outgoing], [incoming_now, outgoing_now]) = (digests(before), digests(&self.memory));
            assert_eq!(incoming, incoming_now);
            assert_eq!(outgoing != outgoing_now, reaches, "version {version}");
        }
    }
}

#[test]
fn random_lists_of_offers() {
    let mut random = Random::new(404);
    let mut met = [0; 27];
    for round in 0..1_500 {
        let offers = Offers::any(&mut random);
        let capacity = match round % 10 {
            0 => random.index(3),
            1 | 2 => random.index(8),
            _ => 10 + random.index(40),
        };
        let rest = random.index(UNIT);
        let mut both = Both::start(random.bytes(UNIT * (capacity + 1) + rest));
        for _ in 0..random.index(capacity + 15) {
            let offer = offers.next(&mut random, both.rebuilt.taken());
            met[both.offer(&offer).number as usize] += 1;
        }
    }
    for number in [0, 3, 4, 5, 6, 7, 8, 9, 18, 26] {
        assert!(met[number] > 20, "{number}: {met:?}");
    }
    assert_eq!(met.iter().filter(|times| **times > 0).count(), 10, "{met:?}");
}

#[test]
fn every_shape_of_tree() {
    let mut random = Random::new(405);
    let count = 70;
    for records in [births(count), one_source(count), in_turn(count), log_k()] {
        let mut both = Both::of(&mut random, records.len());
        for record in &records {
            assert_eq!(both.offer_record(*record).number, 0);
        }
        let after = records.last().map_or(0, Record::time) + 1;
        assert_eq!(both.offer_record(birth(1_000, after)), Outcome { number: 26, position: 0 });
    }
    for _ in 0..60 {
        let records = sound_records(&mut random, 60);
        let mut both = Both::of(&mut random, records.len());
        assert!(records.iter().all(|record| both.offer_record(*record).number == 0));
    }
}

/// A place for each whole 512 bytes after the first 512, and no start below 512.
#[test]
fn every_length_of_memory_up_to_2048() {
    let mut random = Random::new(406);
    for length in 0..=2_048 {
        let before = random.bytes(length);
        if length < UNIT {
            let mut memory = before.clone();
            assert_eq!(recorder_start(&mut memory), Outcome { number: 26, position: 0 });
            assert_eq!(outcome(Recorder::start(length)), Outcome { number: 26, position: 0 });
            assert!(memory == before);
            continue;
        }
        let mut both = Both::start(before);
        for (place, record) in log_k().into_iter().enumerate() {
            let expected = if place < (length - 512) / 512 { 0 } else { 26 };
            assert_eq!(both.offer_record(record), Outcome { number: expected, position: 0 }, "{length}");
            if expected == 26 {
                break;
            }
        }
    }
}

/// Faults of a record are named before the want of a place, in the order of the rows.
#[test]
fn rows_in_their_order() {
    let mut random = Random::new(407);
    let mut both = Both::of(&mut random, 2);
    let refused = |number, position| Outcome { number, position };
    assert_eq!(recorder_commitment(&both.memory, &mut []), refused(1, 0));
    assert_eq!(both.offer(&[]), refused(4, 0));
    assert_eq!(both.offer(&[3]), refused(3, 0));
    assert_eq!(both.offer(&[2]), refused(4, 0));
    assert_eq!(both.offer_record(flow(1, 2, 7, 5)), refused(7, 0));
    assert_eq!(both.offer_record(birth(1, 10)), Outcome::default());
    assert_eq!(both.offer(&write(&log_k()[1..3])), refused(18, 13));
    assert_eq!(both.offer_record(birth(2, 20)), Outcome::default());
    // two places are taken, and no row changes for it
    let long = |record: Record| [&write(&[record])[..], &[0]].concat();
    for (offer, number, position) in [
        (vec![], 4, 0),
        (vec![9], 3, 0),
        (write(&[flow(1, 2, 7, 30)])[..17].to_vec(), 4, 0),
        (long(flow(3, 4, 7, 20)), 5, 0),
        (long(birth(2, 21)), 6, 0),
        (long(flow(3, 4, 7, 21)), 7, 0),
        (long(flow(1, 4, 7, 21)), 8, 0),
        (long(flow(1, 1, 7, 21)), 9, 0),
        (long(flow(1, 2, 7, 21)), 18, 18),
        (long(birth(3, 21)), 18, 13),
        (write(&[flow(1, 2, 7, 21)]), 26, 0),
        (write(&[birth(3, 21)]), 26, 0),
    ] {
        assert_eq!(both.offer(&offer), refused(number, position), "{offer:?}");
    }
    assert_eq!(recorder_commitment(&both.memory, &mut [0; 31]), refused(13, 0));
}

/// Log K: the commitment of document 01's log, and what stands where.
#[test]
fn log_k_byte_by_byte() {
    let mut memory = vec![0xaa; 512 * 5];
    assert_eq!(recorder_start(&mut memory).number, 0);
    assert!(memory[..512].iter().all(|byte| *byte == 0) && memory[512..].iter().all(|byte| *byte == 0xaa));
    for record in log_k() {
        assert_eq!(recorder_take(&write(&[record]), &mut memory).number, 0);
    }
    let mut out = [0; 32];
    assert_eq!(recorder_commitment(&memory, &mut out).number, 0);
    assert_eq!(out, Host::new(&log_k()).commitment());
    // the header: 4 records, 4 versions, 2 entities, the root in slot 1 of the table of entities' tree, the last time
    assert_eq!(memory[..24], [0, 0, 0, 4, 0, 0, 0, 4, 0, 0, 0, 2, 0, 0, 0, 2, 0, 0, 0, 0, 0, 0, 0, 40]);
    // version 2, of entity 2 at 30: previous version 1, source 0, kind 7
    let version = &memory[512 + 128 * 2..][..128];
    assert_eq!(version[64..81], [0, 0, 0, 0, 0, 0, 0, 30, 0, 0, 0, 2, 0, 1, 0, 0, 7]);
    // its first out-edge is the dependency edge to version 3; the lists of versions 1 and 0 go on behind its in-edges or end
    assert_eq!(version[84..96], [0, 0, 0, 7, 0, 0, 0, 0, 0, 0, 0, 6]);
    // the first version of entity 1 is its latest but one: versions 0 and 3, with the inner node in slot 3
    let trees = 512 + 512;
    assert_eq!(memory[trees + 128 * 3 + 96..][..16], [0, 0, 0, 1, 0, 0, 0, 7, 0, 0, 0, 0, 0, 0, 0, 6]);
    assert_eq!(memory[trees + 108..][..4], [0, 0, 0, 6]);
    // entity 1: latest version 3, two versions, root node 6
    assert_eq!(memory[512 + 1_024..][..16], [0, 0, 0, 1, 0, 0, 0, 3, 0, 0, 0, 2, 0, 0, 0, 6]);
    let known = promised(&log_k(), memory.len());
    let place = |what| known.iter().find(|item| item.what == what).map(|item| item.place);
    assert_eq!(place(What::Outgoing { version: 2 }), Some(512 + 256 + 32));
    assert_eq!(place(What::OfVersions { entity: 1, first: 0, leaves: 2 }), Some(trees + 384));
    assert_eq!(place(What::OfVersions { entity: 2, first: 1, leaves: 1 }), Some(trees + 256 + 48));
    assert_eq!(place(What::OfEntities { first: 0, leaves: 2 }), Some(512 + 1_536 + 128));
    assert!(known.iter().all(|item| item.is_in(&memory)));
    assert_eq!(known.len(), 8 + 6 + 3);
}

/// The document's table of what is promised after Log K: the places and widths, in the same order.
#[test]
fn the_document_has_the_places_of_log_k() {
    let document = include_str!("../../../docs/RECORDER.md");
    let (_, table) = document.split_once("| what is promised | at | bytes |\n|---|---|---|\n").expect("the table");
    let rows = table.lines().take_while(|line| line.starts_with('|')).map(|line| {
        let cells: Vec<&str> = line.trim_matches('|').split('|').map(str::trim).collect();
        (cells[1].parse().expect("a place"), cells[2].parse().expect("a width"))
    });
    let known: Vec<(usize, usize)> = promised(&log_k(), 512 * 5).into_iter().map(|item| (item.place, item.bytes.len())).collect();
    assert_eq!(rows.collect::<Vec<(usize, usize)>>(), known);
}

/// Of n leaves there are as many perfect subtrees as 2n less the members of the forest, and no two promised items share a byte.
#[test]
fn places_are_apart() {
    let mut random = Random::new(408);
    for count in 1..200_usize {
        let leaves: Vec<Subtree> = (0..count).map(|key| Subtree::of_leaf(key as u64, sha256(&[key as u8]))).collect();
        let all = perfect_subtrees(Letter::N, &leaves);
        assert_eq!(all.len(), 2 * count - count.count_ones() as usize);
        for (first, size, subtree) in all {
            assert!(size.is_power_of_two() && first % size == 0);
            assert_eq!(subtree, tree(&mut H, Letter::N, &leaves[first..first + size]));
        }
    }
    for _ in 0..200 {
        let records = sound_records(&mut random, 80);
        let length = UNIT * (1 + records.len() + random.index(3)) + random.index(UNIT);
        let mut used = vec![false; length];
        for item in promised(&records, length) {
            let bytes = &mut used[item.place..item.place + item.bytes.len()];
            assert!(bytes.iter().all(|used| !used), "{:?}", item.what);
            bytes.fill(true);
        }
        assert!(used[..UNIT].iter().all(|used| !used));
    }
}

/// Memory that is built at once is, byte for byte, what the calls leave in memory that was all zero.
#[test]
fn built_memory_is_what_calls_leave() {
    let mut random = Random::new(410);
    for round in 0..300 {
        let records = match round {
            0 => births(70),
            1 => one_source(70),
            2 => in_turn(70),
            _ => sound_records(&mut random, 60),
        };
        let length = UNIT * (1 + records.len() + random.index(3));
        let mut memory = vec![0; length];
        recorder_start(&mut memory);
        assert!(records.iter().all(|record| recorder_take(&write(&[*record]), &mut memory).number == 0));
        assert!(running::built(&mut H, &records, length) == memory, "{records:?}");
    }
}

/// Slots end at 65,535, and the record after is row 2, whatever it is, if it is not empty.
#[test]
fn the_most_records() {
    let mut memory = vec![0; UNIT * (MOST_RECORDS + 3)];
    assert_eq!((capacity(memory.len()), slots(memory.len())), (MOST_RECORDS + 2, MOST_RECORDS));
    assert_eq!(recorder_start(&mut memory).number, 0);
    let records = births(MOST_RECORDS);
    let mut rebuilt = Recorder::start(memory.len()).expect("enough memory");
    for offer in records.iter().map(|record| write(&[*record])) {
        assert_eq!((recorder_take(&offer, &mut memory), rebuilt.take(&offer)), (Outcome::default(), Ok(())));
    }
    let mut out = [0; 32];
    assert_eq!(recorder_commitment(&memory, &mut out).number, 0);
    assert_eq!(out, Host::new(&records).commitment());
    assert!(promised(&records, memory.len()).iter().all(|item| item.is_in(&memory)));
    for offer in [&[9][..], &[1], &write(&[birth(u32::MAX, u64::MAX)]), &[0; 40]] {
        assert_eq!(recorder_take(offer, &mut memory), Outcome { number: 2, position: 0 });
        assert_eq!(rebuilt.take(offer), Err(Refusal { number: 2, position: 0 }));
    }
    assert_eq!(recorder_take(&[], &mut memory), Outcome { number: 4, position: 0 });
    assert_eq!(rebuilt.take(&[]), Err(Refusal { number: 4, position: 0 }));
    // exactly as many places: still 2, and not 26
    let length = UNIT * (MOST_RECORDS + 1);
    assert_eq!(recorder_take(&[9], &mut memory[..length]), Outcome { number: 2, position: 0 });
}

/// The commitment is one hash, of R; a birth's hashes grow with the trees' depth and not with the log.
#[test]
fn what_a_call_hashes() {
    let mut memory = vec![0; UNIT * 1_025];
    assert_eq!(recorder_start(&mut memory).number, 0);
    for (place, record) in births(1_024).into_iter().enumerate() {
        let mut hash = Keeping::new(sha256);
        running::take(&mut hash, &write(&[record]), &mut memory).expect("a sound record");
        // I, O, L and G, and the P strings above it
        assert!(hash.strings.len() <= 4 + 11, "{place}: {}", hash.strings.len());
    }
    let mut hash = Keeping::new(sha256);
    assert_eq!(running::commitment(&mut hash, &memory), Ok(Host::new(&births(1_024)).commitment()));
    assert_eq!((hash.strings.len(), hash.strings[0][0], hash.strings[0].len()), (1, b'R', 65));
}

/// Memory that no calls left so: every call ends without a panic, and what is refused leaves it as it was. A header that cannot be is 26, or 1.
#[test]
fn any_memory() {
    let mut random = Random::new(409);
    for round in 0..6_000 {
        let mut memory = damaged_memory(&mut random);
        let bad = !can_be(&memory);
        for _ in 0..4 {
            let before = memory.clone();
            let offer = Offers::any(&mut random).next(&mut random, &births_in(&memory));
            let given = recorder_take(&offer, &mut memory);
            assert!(given.number == 0 || memory == before, "round {round}");
            if bad {
                let expected = if offer.is_empty() { 4 } else { 26 };
                assert_eq!(given, Outcome { number: expected, position: 0 });
                assert_eq!(recorder_commitment(&memory, &mut [0; 32]), Outcome { number: 1, position: 0 });
            }
            recorder_commitment(&memory, &mut [0; 32]);
        }
    }
}

/// Whether a start and calls can leave such a header.
fn can_be(memory: &[u8]) -> bool {
    let number = |at: usize| u32::from_be_bytes(memory[at..at + 4].try_into().unwrap()) as usize;
    memory.len() >= UNIT && number(0) <= slots(memory.len()) && number(4) <= number(0) && number(8) <= number(4)
}

/// Births of the first entities that the table has, to offer records near them.
fn births_in(memory: &[u8]) -> Vec<Record> {
    let start = table_start(Table::Entities, memory.len());
    let entity = |slot: usize| u32::from_be_bytes(memory[start + SLOT * slot..][..4].try_into().unwrap());
    (0..slots(memory.len()).min(5)).map(|slot| birth(entity(slot), slot as u64)).collect()
}

/// Memory of a recorder with some bytes or numbers changed, or of another length, or anything with a header that can be.
fn damaged_memory(random: &mut Random) -> Vec<u8> {
    let records = sound_records(random, 12);
    let room = records.len() + random.index(4);
    let mut memory = vec![0; UNIT * (room + 1)];
    recorder_start(&mut memory);
    for record in &records {
        recorder_take(&write(&[*record]), &mut memory);
    }
    match random.below(5) {
        0 => {
            let length = random.index(memory.len() + 1);
            memory.truncate(length);
        }
        1 => {
            let rest = random.bytes(memory.len() - 16);
            memory[16..].copy_from_slice(&rest);
        }
        2 => memory = random.bytes(memory.len()),
        _ => {
            for _ in 0..1 + random.index(30) {
                let at = random.index(memory.len());
                memory[at] = [0, 1, 2, 255, random.byte()][random.index(5)];
            }
        }
    }
    memory
}
