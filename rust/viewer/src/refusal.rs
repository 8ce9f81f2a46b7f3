//! What turns a call away, in the words of document 01's table and of document 02.

use std::error::Error;
use std::fmt;

/// A row of document 01's table, or one that document 02 adds: its number, and the byte position that it returns.
#[derive(Clone, Copy, Debug, PartialEq, Eq, Hash)]
pub struct Refusal {
    pub number: u64,
    pub position: u64,
}

/// Each row's number and cause. Number 10 is not used again (document 02, A10), number 11 means another direction than it did (A1 and A2),
/// number 25 is A2's and number 26 A4's.
const CAUSES: [(u64, &str); 25] = [
    (1, "log empty"),
    (2, "record 65,536 begins"),
    (3, "command unknown"),
    (4, "record cut short"),
    (5, "time not above the record before"),
    (6, "birth not above earlier births"),
    (7, "flow's source unborn"),
    (8, "destination unborn"),
    (9, "source is destination"),
    (11, "direction above 6"),
    (12, "work area below 128 bytes a record"),
    (13, "output too short for the result"),
    (14, "commitment not 32 bytes"),
    (15, "answer ends inside or before a string, trace header or record"),
    (16, "letter not one due"),
    (17, "H of a proof string not the digest due"),
    (18, "bytes after the end"),
    (19, "trace count 0 or above 65,535"),
    (20, "position not below the record's own"),
    (21, "time not above the record before"),
    (22, "backward: record not last, referred to by none"),
    (23, "found version's record differs from L"),
    (24, "its path digest differs from L"),
    (25, "t1 above t2"),
    (26, "no place left"),
];

impl Refusal {
    /// The row's cause in the table's words; none for a number that no row has, which no call gives.
    pub fn cause(&self) -> Option<&'static str> {
        CAUSES.iter().find(|(number, _)| *number == self.number).map(|(_, cause)| *cause)
    }
}

/// Number, position and cause: `refused 24 at 424: its path digest differs from L`.
impl fmt::Display for Refusal {
    fn fmt(&self, text: &mut fmt::Formatter) -> fmt::Result {
        let cause = self.cause().unwrap_or("no row of the table");
        write!(text, "refused {} at {}: {cause}", self.number, self.position)
    }
}

impl Error for Refusal {}

#[cfg(test)]
mod tests {
    use super::*;

    /// The first two columns of the document's table, below its heading.
    fn table() -> Vec<(String, u64)> {
        let document = include_str!("../../../docs/01-scope.md");
        let rows = document.lines().filter_map(|line| {
            let mut cells = line.strip_prefix('|')?.split('|').map(str::trim);
            Some((cells.next()?.to_string(), cells.next()?.parse().ok()?))
        });
        rows.collect()
    }

    fn said(number: u64, position: u64) -> String {
        Refusal { number, position }.to_string()
    }

    #[test]
    fn every_row_has_the_words_of_the_document() {
        let table = table();
        assert_eq!(table.len(), 24);
        for (place, (cause, number)) in table.into_iter().enumerate() {
            assert_eq!(number, place as u64 + 1);
            let words = match number {
                10 => "no row of the table",
                11 => "direction above 6",
                _ => &cause,
            };
            assert_eq!(said(number, 7), format!("refused {number} at 7: {words}"));
        }
        assert_eq!(CAUSES.len(), 23 + 2);
    }

    /// What requests A1 and A2 say of number 11, A2 of 25 and A4 of 26.
    #[test]
    fn the_later_rows_have_the_words_of_their_request() {
        let requests = include_str!("../../../docs/02-change-requests.md");
        assert!(requests.contains("Number 11 now means a direction above 5."));
        assert!(requests.contains("Errors: 25 at 0, t1 above t2, directly after 11, which from here means above 6."));
        assert_eq!(said(25, 0), "refused 25 at 0: t1 above t2");
        assert!(requests.contains("one with bytes after it 18 once sound, and positions count in it. Errors: 26, no place left, at 0 after these,"));
        assert_eq!(said(18, 13), "refused 18 at 13: bytes after the end");
        assert_eq!(said(26, 0), "refused 26 at 0: no place left");
    }

    #[test]
    fn a_number_outside_the_table_has_no_words() {
        for number in [0, 10, 27, u64::MAX] {
            assert_eq!(Refusal { number, position: 1 }.cause(), None);
            assert_eq!(said(number, 1), format!("refused {number} at 1: no row of the table"));
        }
    }

    #[test]
    fn a_refusal_is_an_error_like_any_other() {
        let boxed: Box<dyn Error + Send + Sync> = Refusal { number: 1, position: 0 }.into();
        assert_eq!(boxed.to_string(), "refused 1 at 0: log empty");
    }
}
