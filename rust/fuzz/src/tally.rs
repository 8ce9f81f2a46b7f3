//! What was run: cases, calls, rows met and verdicts.

use std::fmt;

use calls::{Fields, Name, NAMES};
use reference::DIRECTIONS;

use crate::call::Call;

/// The verdicts in words, by rising number from 1.
const VERDICTS: [&str; 5] = ["no entity", "not yet", "found", "none so late", "listed"];

/// The rows' numbers are below this one.
const ROWS: usize = 27;

/// Rows are counted by call, 0 for a call that is not turned away; verdicts by direction, 0 for none.
#[derive(Clone, Debug, Default)]
pub struct Tally {
    pub cases: u64,
    rows: [[u64; ROWS]; NAMES.len()],
    verdicts: [[u64; VERDICTS.len() + 1]; DIRECTIONS as usize],
    /// Calls of `records` that gave some.
    with_records: u64,
    /// Checks that listed some versions.
    with_list: u64,
}

impl Tally {
    pub fn add(&mut self, call: &Call, fields: &Fields) {
        self.rows[call.name as usize][fields.get("number") as usize] += 1;
        let verdict = fields.get("verdict");
        if verdict > 0 {
            self.verdicts[call.question.direction as usize][verdict as usize] += 1;
        }
        self.with_records += u64::from(call.name == Name::Records && fields.get("length") > 0);
        self.with_list += u64::from(verdict == reference::LISTED && fields.get("count") > 0);
    }

    pub fn calls(&self, name: Name) -> u64 {
        self.rows[name as usize].iter().sum()
    }

    /// The rows that a call met, 0 if it went through.
    pub fn rows_of(&self, name: Name) -> Vec<usize> {
        (0..ROWS).filter(|&row| self.rows[name as usize][row] > 0).collect()
    }

    /// The rows that any call met.
    pub fn rows(&self) -> Vec<usize> {
        (1..ROWS).filter(|&row| self.rows.iter().any(|rows| rows[row] > 0)).collect()
    }

    /// How often the check gave a verdict, by its number, in a direction.
    pub fn verdicts(&self, direction: usize, verdict: usize) -> u64 {
        self.verdicts[direction][verdict]
    }

    pub fn with_records(&self) -> u64 {
        self.with_records
    }

    pub fn with_list(&self) -> u64 {
        self.with_list
    }
}

/// A line a call: how often it was made, and how often it met each row. Then a line a direction: how often the check gave each verdict.
impl fmt::Display for Tally {
    fn fmt(&self, text: &mut fmt::Formatter) -> fmt::Result {
        for name in NAMES {
            write!(text, "{:<18} {:>9} calls, through {}", format!("{name:?}"), self.calls(name), self.rows[name as usize][0])?;
            for row in self.rows_of(name).into_iter().filter(|row| *row > 0) {
                write!(text, ", row {row}: {}", self.rows[name as usize][row])?;
            }
            writeln!(text)?;
        }
        for (direction, given) in self.verdicts.iter().enumerate() {
            let given: Vec<String> = VERDICTS.iter().zip(&given[1..]).map(|(verdict, times)| format!("{times} {verdict}")).collect();
            writeln!(text, "direction {direction}: {}", given.join(", "))?;
        }
        write!(text, "{} with records, {} with a list of some versions", self.with_records, self.with_list)
    }
}
