//! The checked records of a trace, and their text.

use viewer::{Direction, Edge, Record, Way};

/// A record's version in words.
pub fn name(record: &Record) -> String {
    format!("{} at {}", record.entity(), record.time())
}

/// The records of a trace, and the place of the found version's.
#[derive(Debug, PartialEq, Eq)]
pub struct History {
    pub records: Vec<Record>,
    pub found: usize,
}

impl History {
    pub fn new(direction: Direction, records: Vec<Record>) -> History {
        let found = match direction.way() {
            Some(Way::Forward) => 0,
            _ => records.len().saturating_sub(1),
        };
        History { records, found }
    }

    /// A line a version.
    pub fn text(&self) -> String {
        let mut text = String::new();
        for (position, record) in self.records.iter().enumerate() {
            let mark = if position == self.found { ", found" } else { "" };
            text += &format!("{position}: {}{}{mark}\n", name(record), self.origin(record));
        }
        text
    }

    /// Where a version came from, as far as its record shows it.
    fn origin(&self, record: &Record) -> String {
        if matches!(record, Record::E { .. }) {
            return ", birth".to_string();
        }
        let edge = |edge: Edge| {
            let start = name(&self.records[edge.start]);
            match edge.kind {
                None => format!(", temporal edge from {start}"),
                Some(kind) => format!(", dependency edge of kind {kind} from {start}"),
            }
        };
        record.edges().map(edge).collect()
    }
}

#[cfg(test)]
mod tests {
    use super::*;

    #[test]
    fn forward_the_first_is_found() {
        let records = vec![
            Record::S { entity: 2, time: 20 },
            Record::T { entity: 2, time: 30, previous: 0 },
            Record::D { entity: 1, time: 40, kind: 8, source: 1 },
            Record::V { entity: 2, time: u64::MAX, kind: 255, previous: 1, source: 2 },
        ];
        let shown = History::new(Direction::Forward, records.clone());
        assert_eq!(shown, History::new(Direction::ForwardAfter, records));
        assert_eq!(shown.found, 0);
        assert_eq!(
            shown.text(),
            "0: 2 at 20, found\n\
             1: 2 at 30, temporal edge from 2 at 20\n\
             2: 1 at 40, dependency edge of kind 8 from 2 at 30\n\
             3: 2 at 18446744073709551615, temporal edge from 2 at 30, dependency edge of kind 255 from 1 at 40\n"
        );
    }

    #[test]
    fn backward_the_last_is_found() {
        let records = vec![
            Record::E { entity: 1, time: 10 },
            Record::E { entity: 2, time: 20 },
            Record::V { entity: 2, time: 30, kind: 7, previous: 1, source: 0 },
        ];
        let shown = History::new(Direction::Backward, records.clone());
        assert_eq!(shown, History::new(Direction::BackwardAfter, records));
        assert_eq!(shown.found, 2);
        assert_eq!(
            shown.text(),
            "0: 1 at 10, birth\n\
             1: 2 at 20, birth\n\
             2: 2 at 30, temporal edge from 2 at 20, dependency edge of kind 7 from 1 at 10, found\n"
        );
    }

    #[test]
    fn without_records_there_is_no_line() {
        assert_eq!(History::new(Direction::Backward, Vec::new()).text(), "");
    }
}
