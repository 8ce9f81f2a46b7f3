//! What a row of the table returns, and the row that several calls share (section What turns a call away).

/// Bytes of work area for each record.
pub const WORK: usize = 128;

/// A row's number and the byte position it returns.
#[derive(Clone, Copy, Debug, PartialEq, Eq)]
pub struct Refusal {
    pub number: u64,
    pub position: u64,
}

pub fn refuse<T>(number: u64, position: usize) -> Result<T, Refusal> {
    Err(Refusal { number, position: position as u64 })
}

/// Row 12: work area below 128 bytes a record.
pub fn enough_work(work: usize, records: usize) -> Result<(), Refusal> {
    if work < WORK * records {
        return refuse(12, 0);
    }
    Ok(())
}
