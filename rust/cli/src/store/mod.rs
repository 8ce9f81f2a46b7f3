//! A store: a folder in which a recorder keeps its log, and a copy of its memory.
//!
//! The log is the truth. A record is taken in memory first; then its bytes are appended to the file `log` and brought to the disk, and only then is it
//! answered. The file `memory` is a copy from some moment, never what the recorder works on: it saves offering the records before it once more, and
//! is not believed without a look at the log.

mod copy;
pub mod disk;
#[cfg(test)]
mod tests;

use std::io;

use viewer::{Recorder, Refusal, DIGEST, MOST_RECORDS};

use crate::calls;
use disk::Disk;

/// A copy is made after so many records, or after a sixteenth of those taken, whichever is more.
const BETWEEN_COPIES: usize = 256;

/// Why a store cannot be opened.
#[derive(Debug)]
pub enum Unopened {
    /// A file cannot be read or written.
    Disk(io::Error),
    /// The log is refused, and nothing was changed.
    Refused(Refusal),
    /// The recorder has not the log's commitment, from a fresh start either.
    Differs,
}

/// What was found and put in order when a store was opened.
#[derive(Clone, Copy, Debug, Default, PartialEq, Eq)]
pub struct Found {
    /// Where a record was cut short: it was never answered, and was taken off the log.
    pub cut: Option<u64>,
    /// A copy of the memory was there and was not of use.
    pub copy_was_useless: bool,
    /// The copy is of a log of so many bytes, which is more than there are now. It is never ahead of the log: records that were answered are missing.
    pub missing_from: Option<usize>,
    /// Records that had to be offered again.
    pub offered: usize,
}

/// A record that was taken: how many there are now, and the commitment of the log up to it.
#[derive(Clone, Copy, Debug, PartialEq, Eq)]
pub struct Taken {
    pub records: usize,
    pub commitment: [u8; DIGEST],
}

pub struct Store<D> {
    disk: D,
    recorder: Recorder<Vec<u8>>,
    /// The log, with the records that are taken and not yet in its file.
    log: Vec<u8>,
    records: usize,
    /// The bytes of the log that are in its file.
    kept: usize,
    /// The records of the last copy.
    copied: usize,
}

impl<D: Disk> Store<D> {
    /// Opens a store. While records are offered again, which may take long, it is told how many were.
    pub fn open(mut disk: D, told: &mut dyn FnMut(usize)) -> Result<(Self, Found), Unopened> {
        let mut found = Found::default();
        let mut log = disk.read_log().map_err(Unopened::Disk)?;
        if let Some(refusal) = calls::records(&log).err() {
            // a record is cut short only where the log ends
            if refusal.number != 4 {
                return Err(Unopened::Refused(refusal));
            }
            disk.cut_log(refusal.position).and_then(|()| disk.sync_log()).map_err(Unopened::Disk)?;
            log.truncate(refusal.position as usize);
            found.cut = Some(refusal.position);
        }
        disk.sync_folder().map_err(Unopened::Disk)?;
        let copy = disk.read_copy();
        found.missing_from = copy.as_ref().and_then(|copy| copy::bytes_of_log(copy)).filter(|bytes| *bytes > log.len());
        let fitting = copy.as_ref().and_then(|copy| copy::memory_of(copy, &log));
        let copied = fitting.as_ref().map_or(0, |copy| copy.records);
        let from_copy = fitting.and_then(|copy| brought_to(copy.memory, copy.log, &log, told));
        found.copy_was_useless = copy.is_some() && from_copy.is_none();
        let (recorder, offered) = from_copy.or_else(|| brought_to(fresh(), 0, &log, told)).ok_or(Unopened::Differs)?;
        found.offered = offered;
        let records = calls::records(&log).map_err(Unopened::Refused)?;
        let copied = if found.copy_was_useless { 0 } else { copied };
        let kept = log.len();
        Ok((Store { disk, recorder, log, records, kept, copied }, found))
    }

    /// Takes a record in memory. It is answered after `keep`.
    pub fn take(&mut self, record: &[u8]) -> Result<Taken, Refusal> {
        self.recorder.take(record)?;
        self.log.extend_from_slice(record);
        self.records += 1;
        Ok(Taken { records: self.records, commitment: self.recorder.commitment()? })
    }

    /// Brings the records taken to the disk. If that fails the log is cut back to what it was, and the store is of no use any more: its memory is
    /// ahead of the log.
    pub fn keep(mut self) -> io::Result<Self> {
        if self.kept < self.log.len() {
            let brought = self.disk.append(&self.log[self.kept..]).and_then(|()| self.disk.sync_log());
            if let Err(reason) = brought {
                let _ = self.disk.cut_log(self.kept as u64).and_then(|()| self.disk.sync_log());
                return Err(reason);
            }
            self.kept = self.log.len();
        }
        Ok(self)
    }

    /// Whether it is time for another copy.
    pub fn copy_is_due(&self) -> bool {
        self.records - self.copied >= BETWEEN_COPIES.max(self.records / 16)
    }

    /// Whether the last copy is of fewer records.
    pub fn copy_is_old(&self) -> bool {
        self.copied < self.records
    }

    /// Copies the memory. All that it holds must be in the log: `keep` goes before.
    pub fn copy(&mut self) -> io::Result<()> {
        assert_eq!(self.kept, self.log.len(), "a copy is never ahead of the log");
        self.disk.write_copy(&copy::of(self.recorder.memory(), self.records, &self.log))?;
        self.disk.sync_copy()?;
        self.disk.rename_copy()?;
        self.disk.sync_folder()?;
        self.copied = self.records;
        Ok(())
    }
}

fn fresh() -> Recorder<Vec<u8>> {
    Recorder::start(viewer::recorder_memory(MOST_RECORDS)).expect("enough memory")
}

/// A recorder that has taken a part of the log, after it was offered the rest, and how many records that were; none if it does not have the log's
/// commitment then.
fn brought_to(
    mut recorder: Recorder<Vec<u8>>,
    mut place: usize,
    log: &[u8],
    told: &mut dyn FnMut(usize),
) -> Option<(Recorder<Vec<u8>>, usize)> {
    let mut offered = 0;
    while place < log.len() {
        let end = place + calls::record_width(log[place])?;
        recorder.take(log.get(place..end)?).ok()?;
        (place, offered) = (end, offered + 1);
        told(offered);
    }
    // of no records both say row 1
    (recorder.commitment() == calls::commitment(log)).then_some((recorder, offered))
}
