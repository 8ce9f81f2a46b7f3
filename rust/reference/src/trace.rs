//! The letters and widths of a trace (section Questions and answers).

use crate::question::Way;

/// Bytes of a trace header.
pub const HEADER: usize = 5;

/// The header's letter.
pub fn trace_letter(way: Way) -> u8 {
    match way {
        Way::Backward => b'B',
        Way::Forward => b'F',
    }
}

/// The place of the found version among that many records.
pub fn found_place(way: Way, records: usize) -> usize {
    match way {
        Way::Backward => records - 1,
        Way::Forward => 0,
    }
}

/// A record's letter, by whether it shows a temporal and a dependency edge.
pub fn record_letter(way: Way, temporal: bool, dependency: bool) -> u8 {
    match (temporal, dependency) {
        (false, false) if way == Way::Backward => b'E',
        (false, false) => b'S',
        (true, false) => b'T',
        (false, true) => b'D',
        (true, true) => b'V',
    }
}

/// A record's width by its letter; none for any other letter.
pub fn record_width(letter: u8) -> Option<usize> {
    match letter {
        b'E' | b'S' => Some(13),
        b'T' => Some(17),
        b'D' => Some(18),
        b'V' => Some(22),
        _ => None,
    }
}
