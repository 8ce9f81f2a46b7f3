//! The exported calls on slices and plain numbers, with every field of their results.
//!
//! The exported functions have no precondition: a slice is handed over as its pointer and its length, and a shared and a mutable
//! borrow never overlap, which is all that they rely on.

/// A row's number and position; 0 and 0 if the call is not turned away.
#[repr(C)]
#[derive(Clone, Copy, Debug, PartialEq, Eq)]
pub struct Outcome {
    pub number: u64,
    pub position: u64,
}

/// The same, with the length of the bytes written, or of the log in records.
#[repr(C)]
#[derive(Clone, Copy, Debug, PartialEq, Eq)]
pub struct Written {
    pub number: u64,
    pub position: u64,
    pub length: u64,
}

/// The same, with the verdict: 0 refused, 1 no entity, 2 not yet, with the entity's first time, 3 found, with the version's time and the
/// count of records, 4 none so late, with the entity's last time, 5 listed, with the count of versions in the list.
#[repr(C)]
#[derive(Clone, Copy, Debug, PartialEq, Eq)]
pub struct Checked {
    pub number: u64,
    pub position: u64,
    pub verdict: u64,
    pub time: u64,
    pub count: u64,
}

/// A part of the answer.
#[repr(C)]
#[derive(Clone, Copy, Debug, PartialEq, Eq)]
pub struct Part {
    pub start: u64,
    pub length: u64,
}

// The exported functions.
extern "C" {
    fn bozhtagul_hash(message: *const u8, message_len: usize, out: *mut u8, out_len: usize) -> Outcome;
    fn bozhtagul_log(log: *const u8, log_len: usize) -> Written;
    fn bozhtagul_listing(input: *const u8, input_len: usize, out: *mut u8, out_len: usize) -> Written;
    fn bozhtagul_commitment(
        log: *const u8,
        log_len: usize,
        work: *mut u8,
        work_len: usize,
        out: *mut u8,
        out_len: usize,
    ) -> Outcome;
    fn bozhtagul_check(
        direction: u8,
        entity: u32,
        time: u64,
        until: u64,
        commitment: *const u8,
        commitment_len: usize,
        answer: *const u8,
        answer_len: usize,
        work: *mut u8,
        work_len: usize,
        out: *mut u8,
        out_len: usize,
    ) -> Checked;
    fn bozhtagul_records(
        direction: u8,
        entity: u32,
        time: u64,
        until: u64,
        commitment: *const u8,
        commitment_len: usize,
        answer: *const u8,
        answer_len: usize,
        work: *mut u8,
        work_len: usize,
    ) -> Part;
    fn bozhtagul_answer(
        direction: u8,
        entity: u32,
        time: u64,
        until: u64,
        log: *const u8,
        log_len: usize,
        work: *mut u8,
        work_len: usize,
        out: *mut u8,
        out_len: usize,
    ) -> Written;
    fn bozhtagul_recorder_start(memory: *mut u8, memory_len: usize) -> Outcome;
    fn bozhtagul_recorder_take(record: *const u8, record_len: usize, memory: *mut u8, memory_len: usize) -> Outcome;
    fn bozhtagul_recorder_commitment(memory: *const u8, memory_len: usize, out: *mut u8, out_len: usize) -> Outcome;
}

/// An exported function on numbers, then slices to read, then slices to write, each as its pointer and its length.
macro_rules! lend {
    ($call:ident, [$($number:ident),*], [$($read:ident),*], [$($written:ident),*]) => {
        unsafe { $call($($number,)* $($read.as_ptr(), $read.len(),)* $($written.as_mut_ptr(), $written.len(),)*) }
    };
}

pub fn hash(message: &[u8], out: &mut [u8]) -> Outcome {
    lend!(bozhtagul_hash, [], [message], [out])
}

pub fn log(log: &[u8]) -> Written {
    lend!(bozhtagul_log, [], [log], [])
}

pub fn listing(input: &[u8], out: &mut [u8]) -> Written {
    lend!(bozhtagul_listing, [], [input], [out])
}

pub fn commitment(log: &[u8], work: &mut [u8], out: &mut [u8]) -> Outcome {
    lend!(bozhtagul_commitment, [], [log], [work, out])
}

/// `until` is the later end of a span, and without effect outside direction 6.
pub fn answer(direction: u8, entity: u32, time: u64, until: u64, log: &[u8], work: &mut [u8], out: &mut [u8]) -> Written {
    lend!(bozhtagul_answer, [direction, entity, time, until], [log], [work, out])
}

/// `until` is as for [`answer`]. The list is written to `out`, which stays as it was outside direction 6.
#[allow(clippy::too_many_arguments)]
pub fn check(
    direction: u8,
    entity: u32,
    time: u64,
    until: u64,
    commitment: &[u8],
    answer: &[u8],
    work: &mut [u8],
    out: &mut [u8],
) -> Checked {
    lend!(bozhtagul_check, [direction, entity, time, until], [commitment, answer], [work, out])
}

/// `until` is as for [`answer`].
pub fn records(direction: u8, entity: u32, time: u64, until: u64, commitment: &[u8], answer: &[u8], work: &mut [u8]) -> Part {
    lend!(bozhtagul_records, [direction, entity, time, until], [commitment, answer], [work])
}

/// The memory is then that of a fresh recorder, unless the call is turned away.
pub fn recorder_start(memory: &mut [u8]) -> Outcome {
    lend!(bozhtagul_recorder_start, [], [], [memory])
}

/// A record for the recorder whose memory is lent, as it was left.
pub fn recorder_take(record: &[u8], memory: &mut [u8]) -> Outcome {
    lend!(bozhtagul_recorder_take, [], [record], [memory])
}

/// The commitment of the records that the recorder took.
pub fn recorder_commitment(memory: &[u8], out: &mut [u8]) -> Outcome {
    lend!(bozhtagul_recorder_commitment, [], [memory], [out])
}
