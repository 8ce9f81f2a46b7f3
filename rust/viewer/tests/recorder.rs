//! The exported recorder (request A4) against the Rust version that rebuilds, and its memory byte by byte where it is promised.

use reference::graph::Graph;
use reference::host::{reaching, Host};
use reference::log::{write, Record, MOST_RECORDS};
use reference::offers::Offers;
use reference::places::{promised, table_start, Table, SLOT};
use reference::random::{self, Random};
use reference::recorder::Recorder as Rebuilt;
use reference::sample::{birth, births, flow, in_turn, log_k, one_source};
use reference::sha256::Digest;
use viewer::{recorder_length, recorder_memory, Recorder, Refusal};

fn refused<T>(number: u64, position: u64) -> Result<T, Refusal> {
    Err(Refusal { number, position })
}

/// The Rust version's result in the viewer's types.
fn given<T>(result: Result<T, reference::Refusal>) -> Result<T, Refusal> {
    result.map_err(|reference::Refusal { number, position }| Refusal { number, position })
}

/// A recorder of the proved library in memory that held anything before, and the one that rebuilds.
struct Both {
    proved: Recorder<Vec<u8>>,
    rebuilt: Rebuilt,
}

impl Both {
    fn start(memory: Vec<u8>) -> Self {
        let rebuilt = Rebuilt::start(memory.len()).expect("enough memory");
        let both = Both { proved: Recorder::start(memory).expect("enough memory"), rebuilt };
        both.compare();
        both
    }

    fn offer(&mut self, record: &[u8]) -> Result<(), Refusal> {
        let (before, count) = (self.proved.memory().to_vec(), self.rebuilt.taken().len());
        let result = self.proved.take(record);
        assert_eq!(result, given(self.rebuilt.take(record)), "{record:?} after {:?}", self.rebuilt.taken());
        match result {
            Ok(()) => {
                self.compare();
                self.others_keep_their_digests(&before, count);
            }
            Err(_) => assert!(self.proved.memory() == before, "a refused record changes the memory"),
        }
        result
    }

    fn offer_all(&mut self, records: &[Record]) {
        for record in records {
            assert_eq!(self.offer(&write(&[*record])), Ok(()));
        }
    }

    /// The commitment is that of the log taken, asking changes nothing, and all that is promised stands at its place.
    fn compare(&self) {
        let memory = self.proved.memory();
        let before = memory.to_vec();
        assert_eq!(self.proved.commitment(), given(self.rebuilt.commitment()));
        assert!(memory == before, "asking changes the memory");
        for item in promised(self.rebuilt.taken(), memory.len()) {
            assert!(item.is_in(memory), "{:?} after {:?}", item.what, self.rebuilt.taken());
        }
    }

    /// Outgoing digests change only at versions that reach the new one.
    fn others_keep_their_digests(&self, before: &[u8], new: usize) {
        let reaches = reaching(&Graph::new(self.rebuilt.taken()).versions, new);
        for version in (0..new).filter(|&version| !reaches[version]) {
            let place = table_start(Table::Versions, before.len()) + SLOT * version;
            assert_eq!(self.proved.memory()[place..place + 64], before[place..place + 64], "version {version}");
        }
    }
}

#[test]
fn random_lists_of_offers() {
    let mut random = Random::new(41);
    let mut met = [0; 27];
    for round in 0..800 {
        let offers = Offers::any(&mut random);
        let capacity = if round % 5 == 0 { random.index(5) } else { 10 + random.index(40) };
        let rest = random.index(512);
        let mut both = Both::start(random.bytes(recorder_length(capacity) + rest));
        for _ in 0..random.index(capacity + 15) {
            let offer = offers.next(&mut random, both.rebuilt.taken());
            met[both.offer(&offer).map_or_else(|refusal| refusal.number as usize, |()| 0)] += 1;
        }
    }
    for number in [0, 3, 4, 5, 6, 7, 8, 9, 18, 26] {
        assert!(met[number] > 20, "{number}: {met:?}");
    }
}

#[test]
fn every_shape_of_tree() {
    let mut random = Random::new(42);
    for records in [births(70), one_source(70), in_turn(70), log_k()] {
        let mut both = Both::start(random.bytes(recorder_length(records.len())));
        both.offer_all(&records);
        let next = records.last().map_or(0, Record::time) + 1;
        assert_eq!(both.offer(&write(&[birth(100, next)])), refused(26, 0));
    }
}

#[test]
fn extreme_values() {
    let mut random = Random::new(43);
    let mut both = Both::start(random.bytes(recorder_length(5)));
    both.offer_all(&[birth(0, 0), birth(u32::MAX, 1), flow(u32::MAX, 0, 255, u64::MAX - 1), flow(0, u32::MAX, 0, u64::MAX)]);
    assert_eq!(both.offer(&write(&[flow(0, u32::MAX, 0, u64::MAX)])), refused(5, 0));
}

/// The starred log, and rows in their order, with places left and with none.
#[test]
fn rows_by_hand() {
    let mut both = Both::start(vec![0xa5; recorder_length(4)]);
    assert_eq!(both.proved.commitment(), refused(1, 0));
    assert_eq!(both.offer(&[]), refused(4, 0));
    assert_eq!(both.offer(&[0]), refused(3, 0));
    assert_eq!(both.offer(&[1]), refused(4, 0));
    assert_eq!(both.offer(&write(&log_k()[2..3])), refused(7, 0));
    assert_eq!(both.offer(&write(&log_k()[..2])), refused(18, 13));
    both.offer_all(&log_k());
    for (record, number, position) in [
        (flow(1, 1, 7, 40), 5, 0),
        (birth(2, 50), 6, 0),
        (flow(3, 3, 7, 50), 7, 0),
        (flow(1, 3, 7, 50), 8, 0),
        (flow(1, 1, 7, 50), 9, 0),
    ] {
        assert_eq!(both.offer(&write(&[record])), refused(number, position));
        assert_eq!(both.offer(&write(&[record, record])), refused(number, position));
    }
    assert_eq!(both.offer(&write(&[flow(1, 2, 7, 50), birth(3, 60)])), refused(18, 18));
    assert_eq!(both.offer(&write(&[flow(1, 2, 7, 50)])), refused(26, 0));
    assert_eq!(both.offer(&[]), refused(4, 0));
}

/// A fresh start takes 512 bytes, and each whole 512 bytes more are a place.
#[test]
fn every_length_of_memory_up_to_2048() {
    let mut random = Random::new(44);
    for length in 0..=2_048 {
        let before = random.bytes(length);
        let mut memory = before.clone();
        let started = Recorder::start(&mut memory[..]).map(|_| ());
        if length < 512 {
            assert_eq!(started, refused(26, 0));
            assert!(memory == before);
            continue;
        }
        assert_eq!(started, Ok(()));
        let mut both = Both::start(before);
        let places = (length - 512) / 512;
        both.offer_all(&births(places));
        assert_eq!(both.offer(&write(&[birth(9, 9)])), refused(26, 0), "{length}");
    }
}

/// Memory that is borrowed, copied or handed on is the recorder.
#[test]
fn the_memory_is_the_recorder() {
    let commitment = |records: &[Record]| -> Digest { Host::new(records).commitment() };
    let mut memory = vec![0xa5; recorder_length(4)];
    let mut borrowed = Recorder::start(&mut memory[..]).expect("enough memory");
    borrowed.take(&write(&log_k()[..1])).expect("a sound record");
    let copy = borrowed.memory().to_vec();
    borrowed.take(&write(&log_k()[1..2])).expect("a sound record");
    assert_eq!(borrowed.commitment(), Ok(commitment(&log_k()[..2])));
    let mut owned = Recorder::resume(memory);
    for record in &log_k()[2..] {
        owned.take(&write(&[*record])).expect("a sound record");
    }
    assert_eq!(owned.commitment(), Ok(commitment(&log_k())));
    assert_eq!(Recorder::resume(owned.into_memory()).commitment(), Ok(commitment(&log_k())));
    assert_eq!(Recorder::resume(copy).commitment(), Ok(commitment(&log_k()[..1])));
}

/// 65,535 records, and then row 2 for all but an empty record, with more places or with none left.
#[test]
fn the_most_records() {
    let records = births(MOST_RECORDS);
    let commitment = Host::new(&records).commitment();
    for places in [MOST_RECORDS, MOST_RECORDS + 2] {
        let mut recorder = Recorder::start(recorder_memory(places)).expect("enough memory");
        assert!(records.iter().all(|record| recorder.take(&write(&[*record])).is_ok()));
        assert_eq!(recorder.commitment(), Ok(commitment));
        assert!(promised(&records, recorder.memory().len()).iter().all(|item| item.is_in(recorder.memory())));
        for offer in [&[9][..], &[1], &write(&[birth(u32::MAX, u64::MAX)]), &[0; 40]] {
            assert_eq!(recorder.take(offer), refused(2, 0));
        }
        assert_eq!(recorder.take(&[]), refused(4, 0));
        assert_eq!(recorder.commitment(), Ok(commitment));
    }
}

/// Memory that no start and calls left so, with headers that cannot be and ones that can: every call ends, a refusal and asking leave it as it was.
#[test]
fn any_memory() {
    let mut random = Random::new(45);
    for _ in 0..4_000 {
        let records = random::sound_records(&mut random, 12);
        let mut recorder = Recorder::start(recorder_memory(records.len() + random.index(3))).expect("enough memory");
        for record in &records {
            recorder.take(&write(&[*record])).expect("a sound record");
        }
        let mut memory = recorder.into_memory();
        if random.once_in(4) {
            // anything behind the numbers of a header that can be
            let rest = random.bytes(memory.len() - 16);
            memory[16..].copy_from_slice(&rest);
        }
        for _ in 0..random.index(40) {
            let at = random.index(memory.len());
            memory[at] = [0, 1, 2, 255, random.byte()][random.index(5)];
        }
        if random.once_in(4) {
            let length = random.index(memory.len() + 1);
            memory.truncate(length);
        }
        let mut damaged = Recorder::resume(memory);
        for _ in 0..4 {
            let before = damaged.memory().to_vec();
            let _ = damaged.commitment();
            assert!(damaged.memory() == before);
            let offer = Offers::any(&mut random).next(&mut random, &records);
            let taken = damaged.take(&offer);
            assert!(taken.is_ok() || damaged.memory() == before);
        }
    }
}

/// A header that no start and calls leave, or none: 4 for an empty record and else 26, and 1 for the commitment.
#[test]
fn headers_that_cannot_be() {
    let header = |records: u32, versions: u32, entities: u32| [records, versions, entities].map(u32::to_be_bytes).concat();
    let mut memories = vec![vec![], vec![0; 511], vec![0xff; 2_048]];
    for numbers in [header(4, 4, 2), header(3, 4, 2), header(3, 3, 4), header(0, 1, 0), header(0, 0, 1)] {
        let mut memory = recorder_memory(3);
        memory[..12].copy_from_slice(&numbers);
        memories.push(memory);
    }
    for memory in memories {
        let mut recorder = Recorder::resume(memory.clone());
        assert_eq!(recorder.commitment(), refused(1, 0));
        assert_eq!(recorder.take(&[]), refused(4, 0));
        for offer in [&[9][..], &[1], &write(&[birth(1, 10)]), &write(&log_k())] {
            assert_eq!(recorder.take(offer), refused(26, 0));
        }
        assert!(recorder.into_memory() == memory);
    }
}
