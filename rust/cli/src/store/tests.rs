//! Stores in folders: stopped at every operation on a file, with cut logs, and with copies of every kind.

use std::cell::{Cell, RefCell};
use std::fs;
use std::path::{Path, PathBuf};
use std::rc::Rc;

use reference::host::Host;
use reference::log::{read, write, Record};
use reference::random::{records_of_length, Random};
use reference::sample::{birth, flow, in_turn, log_k};

use super::disk::Folder;
use super::*;

/// A folder of a test's own, in which there is nothing.
fn new_folder(name: &str) -> PathBuf {
    let path = std::env::temp_dir().join(format!("bozhtagul-store-{}-{name}", std::process::id()));
    let _ = fs::remove_dir_all(&path);
    path
}

fn opened(path: &Path) -> (Store<Folder>, Found) {
    Store::open(Folder::open(path).expect("a folder").expect("nobody else has it"), &mut |_| ()).expect("a store")
}

fn log_of(path: &Path) -> Vec<u8> {
    fs::read(path.join("log")).expect("a log")
}

fn commitment_of(records: &[Record]) -> [u8; DIGEST] {
    Host::new(records).commitment()
}

/// A store that has taken these records, with a copy of the memory after the first so many.
fn store_of(name: &str, records: &[Record], copied: usize) -> PathBuf {
    let path = new_folder(name);
    let mut store = opened(&path).0;
    for (place, record) in records.iter().enumerate() {
        store.take(&write(&[*record])).expect("a sound record");
        if place + 1 == copied {
            store = store.keep().expect("kept");
            store.copy().expect("a copy");
        }
    }
    drop(store.keep().expect("kept"));
    path
}

/// The commitment of a store's log, 0 without a record, after it was seen that the store takes another record on top of it.
fn commitment_in(path: &Path, next: Record) -> [u8; DIGEST] {
    let (mut store, _) = opened(path);
    let before = read(&log_of(path)).unwrap_or_default();
    let taken = store.take(&write(&[next])).expect("a sound record");
    assert_eq!(taken.commitment, commitment_of(&[&before[..], &[next]].concat()));
    drop(store);
    if before.is_empty() { [0; DIGEST] } else { commitment_of(&before) }
}

#[test]
fn records_are_kept_and_found_again() {
    let path = new_folder("again");
    let mut store = opened(&path).0;
    for (place, record) in log_k().into_iter().enumerate() {
        let taken = store.take(&write(&[record])).expect("a sound record");
        assert_eq!(taken, Taken { records: place + 1, commitment: commitment_of(&log_k()[..=place]) });
        assert_eq!(store.take(&write(&[record])), Err(Refusal { number: 5, position: 0 }));
        // in memory alone until it is kept
        assert_eq!(log_of(&path), write(&log_k()[..place]));
        store = store.keep().expect("kept");
        assert_eq!(log_of(&path), write(&log_k()[..=place]));
    }
    store.copy().expect("a copy");
    drop(store);
    let (store, found) = opened(&path);
    assert_eq!((store.records, store.copied, found), (4, 4, Found::default()));
    fs::remove_dir_all(&path).expect("removed");
}

#[test]
fn one_process_has_a_store() {
    let path = new_folder("locked");
    let first = opened(&path);
    assert!(Folder::open(&path).expect("a folder").is_none());
    drop(first);
    assert!(Folder::open(&path).expect("a folder").is_some());
    fs::remove_dir_all(&path).expect("removed");
}

/// A folder with other files and no log is not made a store, and is left as it was.
#[test]
fn another_folder_is_left_alone() {
    let path = new_folder("other-files");
    fs::create_dir(&path).expect("a folder");
    fs::write(path.join("letter"), "dear").expect("written");
    assert!(Folder::open(&path).is_err());
    assert_eq!(fs::read_dir(&path).expect("a folder").count(), 1);
    fs::remove_file(path.join("letter")).expect("removed");
    assert!(Folder::open(&path).expect("an empty folder").is_some());
    fs::remove_dir_all(&path).expect("removed");
}

/// How an operation is stopped.
#[derive(Clone, Copy, Debug)]
enum Stop {
    Before,
    /// Of what is to be written so much, in hundredths, and at least a byte less than all.
    Within(usize),
    After,
}

/// Files that are as they are when the process is stopped at an operation: nothing is done to them any more.
struct Stopping {
    folder: Folder,
    /// Operations before the one at which it stops.
    left: Rc<Cell<usize>>,
    stop: Stop,
    /// Bytes of the log that are on the disk for certain.
    synced: Rc<Cell<usize>>,
    length: usize,
}

impl Stopping {
    fn stopped<T>() -> io::Result<T> {
        Err(io::Error::other("stopped"))
    }

    /// Whether it is stopped already, or at this operation; else one operation less is left.
    fn at(&mut self) -> Option<bool> {
        match self.left.get() {
            usize::MAX => Some(false),
            0 => {
                self.left.set(usize::MAX);
                Some(true)
            }
            left => {
                self.left.set(left - 1);
                None
            }
        }
    }

    fn whole(&mut self, run: impl FnOnce(&mut Folder) -> io::Result<()>) -> io::Result<()> {
        match (self.at(), self.stop) {
            (None, _) => run(&mut self.folder),
            (Some(true), Stop::After) => run(&mut self.folder).and_then(|()| Stopping::stopped()),
            _ => Stopping::stopped(),
        }
    }

    /// How much of some bytes is written, and whether it stops then.
    fn part(&mut self, bytes: usize) -> (usize, bool) {
        match (self.at(), self.stop) {
            (None, _) => (bytes, false),
            (Some(true), Stop::After) => (bytes, true),
            (Some(true), Stop::Within(hundredths)) => ((bytes * hundredths / 100).min(bytes - 1), true),
            _ => (0, true),
        }
    }
}

impl Disk for Stopping {
    fn read_log(&mut self) -> io::Result<Vec<u8>> {
        let log = self.folder.read_log()?;
        self.length = log.len();
        self.synced.set(log.len());
        Ok(log)
    }

    fn read_copy(&mut self) -> Option<Vec<u8>> {
        self.folder.read_copy()
    }

    fn append(&mut self, bytes: &[u8]) -> io::Result<()> {
        let (part, stops) = self.part(bytes.len());
        if part > 0 {
            self.folder.append(&bytes[..part])?;
            self.length += part;
        }
        if stops { Stopping::stopped() } else { Ok(()) }
    }

    fn sync_log(&mut self) -> io::Result<()> {
        let length = self.length;
        let synced = self.whole(Folder::sync_log);
        if synced.is_ok() {
            self.synced.set(length);
        }
        synced
    }

    fn cut_log(&mut self, length: u64) -> io::Result<()> {
        let cut = self.whole(|folder| folder.cut_log(length));
        if cut.is_ok() {
            self.length = length as usize;
            self.synced.set(self.synced.get().min(self.length));
        }
        cut
    }

    fn write_copy(&mut self, bytes: &[u8]) -> io::Result<()> {
        let (part, stops) = self.part(bytes.len());
        self.folder.write_copy(&bytes[..part])?;
        if stops { Stopping::stopped() } else { Ok(()) }
    }

    fn sync_copy(&mut self) -> io::Result<()> {
        self.whole(Folder::sync_copy)
    }

    fn rename_copy(&mut self) -> io::Result<()> {
        self.whole(Folder::rename_copy)
    }

    fn sync_folder(&mut self) -> io::Result<()> {
        self.whole(Folder::sync_folder)
    }
}

/// Records in batches of two, each offered once more, and a copy after each batch; says how many of all records were answered. Stops where the disk
/// does.
fn live(disk: Stopping, records: &[Record], answered: &RefCell<usize>) -> Option<()> {
    let mut store = Store::open(disk, &mut |_| ()).ok()?.0;
    let before = store.records;
    *answered.borrow_mut() = before;
    for batch in records[before..].chunks(2) {
        for record in batch {
            store.take(&write(&[*record])).expect("a sound record");
            store.take(&write(&[*record])).expect_err("the same once more");
        }
        store = store.keep().ok()?;
        *answered.borrow_mut() = store.records;
        store.copy().ok()?;
    }
    Some(())
}

/// After a stop: all that was answered is in the log, and no record that was not offered; opened again, the store goes on to the end of the log.
fn goes_on(path: &Path, records: &[Record], answered: usize) {
    let log = log_of(path);
    let whole = write(records);
    assert!(whole.starts_with(&log) && log.len() >= write(&records[..answered]).len());
    let (mut store, found) = opened(path);
    assert_eq!(found.missing_from, None);
    let kept = read(&log_of(path)).unwrap_or_default();
    assert_eq!((&kept[..], store.records), (&records[..kept.len()], kept.len()));
    assert!(kept.len() >= answered);
    for (place, record) in records.iter().enumerate() {
        match store.take(&write(&[*record])) {
            // what was in the log already
            Err(refusal) => assert!(refusal.number == 5 && place < kept.len()),
            Ok(taken) => assert_eq!((taken.records, taken.commitment), (place + 1, commitment_of(&records[..=place]))),
        }
    }
    drop(store.keep().expect("kept"));
    assert_eq!(log_of(path), whole);
}

/// Puts the files of one folder into another.
fn copy_files(from: &Path, to: &Path) {
    let _ = fs::remove_dir_all(to);
    fs::create_dir_all(to).expect("a folder");
    for name in ["log", "memory", "memory.new"] {
        if from.join(name).exists() {
            fs::copy(from.join(name), to.join(name)).expect("copied");
        }
    }
}

/// A stop before, within and after every operation, from an empty store and from one whose log was cut; then all that the disk may have lost of what
/// was not synced.
#[test]
fn a_stop_at_every_operation() {
    let records = records_of_length(&mut Random::new(7), 9);
    let (path, other) = (new_folder("stop"), new_folder("stop-other"));
    let mut stops = 0;
    for started in [0, 3] {
        for operation in 0.. {
            let mut ran_through = false;
            for stop in [Stop::Before, Stop::Within(0), Stop::Within(30), Stop::Within(100), Stop::After] {
                let _ = fs::remove_dir_all(&path);
                if started > 0 {
                    copy_files(&store_of("stop-start", &records[..started], 2), &path);
                    let cut = write(&records[..started + 1]);
                    fs::write(path.join("log"), &cut[..cut.len() - 1]).expect("written");
                }
                let (left, synced, answered) = (Rc::new(Cell::new(operation)), Rc::new(Cell::new(0)), RefCell::new(0));
                let folder = Folder::open(&path).expect("a folder").expect("nobody else has it");
                let disk = Stopping { folder, left: left.clone(), stop, synced: synced.clone(), length: 0 };
                ran_through = live(disk, &records, &answered).is_some();
                stops += usize::from(!ran_through);
                let (answered, length) = (*answered.borrow(), log_of(&path).len());
                for lost in 0..=length.saturating_sub(synced.get()) {
                    copy_files(&path, &other);
                    fs::write(other.join("log"), &log_of(&path)[..length - lost]).expect("written");
                    goes_on(&other, &records, answered);
                }
            }
            if ran_through {
                break;
            }
        }
    }
    // 7 operations a batch and its copy, and those of opening
    assert!(stops > 5 * 2 * 4 * 6, "{stops}");
    for path in [path, other, new_folder("stop-start")] {
        let _ = fs::remove_dir_all(path);
    }
}

#[test]
fn every_cut_of_the_last_record() {
    let records = [&log_k()[..], &[birth(3, 50), flow(3, 1, 9, 60)]].concat();
    let next = flow(1, 2, 7, 70);
    for (count, copied) in [(5, 0), (5, 3), (6, 3), (6, 6), (1, 0), (1, 1)] {
        let path = store_of("cut", &records[..count], copied);
        let (log, start) = (log_of(&path), write(&records[..count - 1]).len());
        for end in start..log.len() {
            fs::write(path.join("log"), &log[..end]).expect("written");
            let (store, found) = opened(&path);
            assert_eq!(found.cut, (end > start).then_some(start as u64));
            // of a copy that had the record, it is said that records are missing
            assert_eq!(found.missing_from, (copied == count).then_some(log.len()));
            assert_eq!((store.records, log_of(&path).len()), (count - 1, start));
            drop(store);
            let next = if count == 1 { birth(1, 70) } else { next };
            assert_eq!(commitment_in(&path, next), if count == 1 { [0; DIGEST] } else { commitment_of(&records[..count - 1]) });
        }
    }
    let _ = fs::remove_dir_all(new_folder("cut"));
}

/// A copy that is changed in any byte, cut, older, of another log or missing: the store is as from nothing.
#[test]
fn copies_of_every_kind() {
    let records = [&log_k()[..], &[birth(3, 50)]].concat();
    let next = flow(3, 1, 7, 70);
    let expected = commitment_of(&records);
    let path = store_of("copies", &records, 4);
    let copy = fs::read(path.join("memory")).expect("a copy");
    assert_eq!(copy.len(), 104 + 512 + 128 * (4 + 4 + 2 + 2));
    let with = |bytes: &[u8]| {
        fs::write(path.join("memory"), bytes).expect("written");
        let (store, found) = opened(&path);
        assert_eq!(store.recorder.commitment(), Ok(expected));
        found
    };
    assert_eq!(with(&copy), Found { offered: 1, ..Found::default() });
    assert_eq!(commitment_in(&path, next), expected);
    let useless = Found { copy_was_useless: true, offered: 5, ..Found::default() };
    for place in 0..copy.len() {
        let mut changed = copy.clone();
        changed[place] ^= 1 << (place % 8);
        assert_eq!(with(&changed), useless, "{place}");
    }
    for length in (0..200).chain((200..copy.len()).step_by(37)) {
        assert_eq!(with(&copy[..length]), useless, "{length}");
    }
    assert_eq!(with(&[&copy[..], &[0]].concat()), useless);
    for (other, copied, found) in [
        (log_k(), 4, Found { offered: 1, ..Found::default() }),
        (log_k(), 1, Found { offered: 4, ..Found::default() }),
        (in_turn(4), 4, useless),
        (in_turn(30), 30, Found { missing_from: Some(write(&in_turn(30)).len()), ..useless }),
    ] {
        let other = store_of("copies-other", &other, copied);
        assert_eq!(with(&fs::read(other.join("memory")).expect("a copy")), found);
    }
    fs::remove_file(path.join("memory")).expect("removed");
    assert_eq!(commitment_in(&path, next), expected);
    assert_eq!(opened(&path).1, Found { offered: 5, ..Found::default() });
    // a folder in its place
    fs::create_dir(path.join("memory")).expect("a folder");
    assert_eq!(commitment_in(&path, next), expected);
    for path in [path, new_folder("copies-other")] {
        let _ = fs::remove_dir_all(path);
    }
}

/// A copy that passes every look but has not the log's commitment: once more from a fresh start.
#[test]
fn a_copy_with_another_commitment() {
    let path = store_of("forged", &log_k(), 4);
    let (log, mut store) = (log_of(&path), opened(&path).0);
    let mut memory = store.recorder.memory().to_vec();
    memory[512 + 3 * 128 * MOST_RECORDS + 128 + 20] ^= 1;
    fs::write(path.join("memory"), copy::of(&memory, 4, &log)).expect("written");
    assert_eq!(store.take(&write(&[birth(3, 50)])).map(|taken| taken.records), Ok(5));
    drop(store);
    let (store, found) = opened(&path);
    assert_eq!(found, Found { copy_was_useless: true, offered: 4, ..Found::default() });
    assert_eq!(store.recorder.commitment(), Ok(commitment_of(&log_k())));
    let _ = fs::remove_dir_all(path);
}

/// A byte changed in the log: it is refused and nothing is touched, or the commitment is another, or its last record is cut short.
#[test]
fn a_changed_log() {
    let path = store_of("changed", &log_k(), 4);
    let log = log_of(&path);
    let answered = commitment_of(&log_k());
    let (mut refused, mut other) = (0, 0);
    for place in 0..log.len() {
        for bit in 0..8 {
            let mut changed = log.clone();
            changed[place] ^= 1 << bit;
            fs::write(path.join("log"), &changed).expect("written");
            let folder = Folder::open(&path).expect("a folder").expect("nobody else has it");
            match Store::open(folder, &mut |_| ()) {
                Err(Unopened::Refused(_)) => {
                    assert_eq!(log_of(&path), changed);
                    refused += 1;
                }
                Ok((store, found)) => {
                    assert!(found.copy_was_useless);
                    assert_ne!(store.recorder.commitment(), Ok(answered));
                    other += 1;
                }
                Err(why) => panic!("{why:?}"),
            }
        }
    }
    assert!(refused > 200 && other > 50, "{refused} {other}");
    let _ = fs::remove_dir_all(path);
}

/// After 256 records, and not only at the end.
#[test]
fn copies_come_now_and_then() {
    let path = new_folder("now-and-then");
    let mut store = opened(&path).0;
    let mut copies = Vec::new();
    for place in 0..1_000 {
        store.take(&write(&[birth(place, u64::from(place))])).expect("a sound record");
        if store.copy_is_due() {
            store = store.keep().expect("kept");
            store.copy().expect("a copy");
            copies.push(store.records);
        }
    }
    assert_eq!(copies, [256, 512, 768]);
    assert!(store.copy_is_old());
    drop(store.keep().expect("kept"));
    assert_eq!(opened(&path).1.offered, 1_000 - 768);
    let _ = fs::remove_dir_all(path);
}
