//! A running recorder.

use std::fmt;

use crate::{accepted, plain, Refusal, DIGEST};

/// A recorder that takes one record a call, and has the commitment of the log made of the records taken, in order, at any time. All that it knows is
/// in its memory, which it owns (`Vec<u8>`) or borrows (`&mut [u8]`).
///
/// The memory has a place for each whole 512 bytes after its first 512 ([`recorder_memory`](crate::recorder_memory)), and for no more than
/// [`MOST_RECORDS`](crate::MOST_RECORDS). Nothing has to be written to it before.
#[derive(Clone)]
pub struct Recorder<M> {
    memory: M,
}

/// Without the memory, which may have 32 MiB.
impl<M> fmt::Debug for Recorder<M> {
    fn fmt(&self, text: &mut fmt::Formatter) -> fmt::Result {
        text.debug_struct("Recorder").finish_non_exhaustive()
    }
}

impl<M: AsRef<[u8]> + AsMut<[u8]>> Recorder<M> {
    /// A fresh recorder. Memory below 512 bytes is row 26, and stays as it was.
    ///
    /// Takes at most [`stack::RECORDER_START`](crate::stack::RECORDER_START) bytes of stack, as measured.
    pub fn start(mut memory: M) -> Result<Self, Refusal> {
        accepted(plain::recorder_start(memory.as_mut()))?;
        Ok(Recorder { memory })
    }

    /// The recorder whose memory this is, all of it as [`into_memory`](Recorder::into_memory) gave it or as [`memory`](Recorder::memory) showed it.
    /// Nothing is promised of any other memory but that each call ends and touches nothing else.
    pub fn resume(memory: M) -> Self {
        Recorder { memory }
    }

    /// Takes a record, the bytes of one and no others; else the row that it meets, and nothing is changed: 4 if it is empty, 2 to 9 as the next
    /// record of the log, 18 if bytes follow it, and 26 if no place is left. Positions count in the record.
    ///
    /// Takes at most [`stack::RECORDER_TAKE`](crate::stack::RECORDER_TAKE) bytes of stack, as measured.
    pub fn take(&mut self, record: &[u8]) -> Result<(), Refusal> {
        accepted(plain::recorder_take(record, self.memory.as_mut()))
    }

    /// The commitment of the log made of the records taken. Row 1 while there is none.
    ///
    /// Takes at most [`stack::RECORDER_COMMITMENT`](crate::stack::RECORDER_COMMITMENT) bytes of stack, as measured.
    pub fn commitment(&self) -> Result<[u8; DIGEST], Refusal> {
        let mut out = [0; DIGEST];
        accepted(plain::recorder_commitment(self.memory.as_ref(), &mut out))?;
        Ok(out)
    }

    /// The memory, to be copied or looked at: `docs/RECORDER.md` says what stands where.
    pub fn memory(&self) -> &[u8] {
        self.memory.as_ref()
    }

    pub fn into_memory(self) -> M {
        self.memory
    }
}
