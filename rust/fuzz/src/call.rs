//! A call with its inputs and the memory that it is lent.

use calls::Name;
use reference::Question;

use crate::guard::Edge;

/// A call; what it does not take is not looked at.
#[derive(Clone, Debug)]
pub struct Call {
    pub name: Name,
    pub question: Question,
    pub commitment: Vec<u8>,
    /// The message, the log, the answer or the record.
    pub input: Vec<u8>,
    /// Bytes of the work area, or of a recorder's memory at its start, and of the output.
    pub work: usize,
    pub out: usize,
    pub pattern: Pattern,
    /// What is put into a recorder's memory before the call, at which places.
    pub damage: Vec<(usize, u8)>,
    /// How commitment, input, work area and output stand beside forbidden pages.
    pub edges: [Edge; 4],
}

/// What the work area and the output hold before the call, and a recorder's memory before its start.
#[derive(Clone, Copy, Debug)]
pub struct Pattern {
    pub first: u8,
    pub step: u8,
}

impl Pattern {
    pub fn bytes(&self, length: usize) -> Vec<u8> {
        (0..length).map(|place| self.first.wrapping_add(self.step.wrapping_mul(place as u8))).collect()
    }
}
