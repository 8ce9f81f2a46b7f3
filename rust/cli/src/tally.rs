//! What became of the answers, counted.

use std::collections::BTreeMap;
use std::time::Duration;

use viewer::Refusal;

/// What became of an answer.
pub enum Marked {
    Accepted,
    /// The answer and its row.
    Refused(Vec<u8>, Refusal),
    /// There was none, for a reason.
    Failed(String),
}

#[derive(Default)]
pub struct Tally {
    asked: usize,
    accepted: usize,
    failed: usize,
    /// How often each row was met.
    refused: BTreeMap<u64, usize>,
    time: Duration,
}

/// The heading of the lines, behind the name.
pub const HEADING: &str = "  asked  accepted  no answer  seconds  refused";

impl Tally {
    pub fn add(&mut self, marked: &Marked, time: Duration) {
        self.asked += 1;
        self.time += time;
        match marked {
            Marked::Accepted => self.accepted += 1,
            Marked::Refused(_, refusal) => *self.refused.entry(refusal.number).or_default() += 1,
            Marked::Failed(_) => self.failed += 1,
        }
    }

    pub fn add_all(&mut self, other: &Tally) {
        self.asked += other.asked;
        self.accepted += other.accepted;
        self.failed += other.failed;
        self.time += other.time;
        for (row, times) in &other.refused {
            *self.refused.entry(*row).or_default() += times;
        }
    }

    /// The fields of the line in JSON.
    pub fn fields(&self) -> Vec<(&'static str, String)> {
        let rows: Vec<String> = self.refused.iter().map(|(row, times)| format!("\"{row}\":{times}")).collect();
        vec![
            ("asked", self.asked.to_string()),
            ("accepted", self.accepted.to_string()),
            ("no_answer", self.failed.to_string()),
            ("seconds", format!("{:.2}", self.time.as_secs_f64())),
            ("refused", format!("{{{}}}", rows.join(","))),
        ]
    }

    /// A line, whose name has its width already.
    pub fn line(&self, name: &str) -> String {
        let rows: Vec<String> = self.refused.iter().map(|(row, times)| format!("{times} by row {row}")).collect();
        let rows = if rows.is_empty() { "none".to_string() } else { rows.join(", ") };
        let seconds = self.time.as_secs_f64();
        format!("{name} {:>6} {:>9} {:>10} {seconds:>8.2}  {rows}\n", self.asked, self.accepted, self.failed)
    }
}
