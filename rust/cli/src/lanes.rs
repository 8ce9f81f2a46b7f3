//! A checked history with lanes for a terminal, as `git log --graph` has them: a lane for each entity while it is shown or feeds another, and
//! the names in one column.

use std::collections::BTreeMap;

use crate::history::{name, History};

/// The last row in which each entity is shown or feeds another.
fn last_rows(history: &History) -> BTreeMap<u32, usize> {
    let mut last = BTreeMap::new();
    for (row, record) in history.records.iter().enumerate() {
        last.insert(record.entity(), row);
        for edge in record.edges() {
            last.insert(history.records[edge.start].entity(), row);
        }
    }
    last
}

/// The entities that have a lane, each in its place. A lane that is free is taken again.
#[derive(Default)]
struct Lanes(Vec<Option<u32>>);

impl Lanes {
    /// The place of an entity's lane, a free one if it has none yet.
    fn place(&mut self, entity: u32) -> usize {
        let of = |wanted: Option<u32>| move |lane: &Option<u32>| *lane == wanted;
        let found = self.0.iter().position(of(Some(entity))).or_else(|| self.0.iter().position(of(None)));
        let place = found.unwrap_or(self.0.len());
        if place == self.0.len() {
            self.0.push(None);
        }
        self.0[place] = Some(entity);
        place
    }

    fn end(&mut self, row: usize, last: &BTreeMap<u32, usize>) {
        self.0.iter_mut().filter(|lane| lane.is_some_and(|entity| last[&entity] <= row)).for_each(|lane| *lane = None);
        while self.0.last() == Some(&None) {
            self.0.pop();
        }
    }

    /// A line of lanes, with marks at some places and a line between two of them.
    fn drawn(&self, marks: &[(usize, char)], between: Option<(usize, usize)>) -> String {
        let mark = |place: usize| marks.iter().find(|(at, _)| *at == place).map(|(_, mark)| *mark);
        let crosses = |place: usize| between.is_some_and(|(a, b)| a.min(b) <= place && place < a.max(b));
        let lane = |place: usize| match (mark(place), self.0[place]) {
            (Some(mark), _) => mark,
            (None, Some(_)) => '|',
            (None, None) if crosses(place) => '-',
            (None, None) => ' ',
        };
        (0..self.0.len()).flat_map(|place| [lane(place), if crosses(place) { '-' } else { ' ' }]).collect()
    }
}

/// A line a version: 'o' the version, '*' the found one, '+' the one that fed it.
pub fn text(history: &History) -> String {
    let last = last_rows(history);
    let mut lanes = Lanes::default();
    let rows: Vec<(String, String)> = (0..history.records.len()).map(|row| line(history, row, &mut lanes, &last)).collect();
    let width = rows.iter().map(|(graph, _)| graph.len()).max().unwrap_or(0);
    rows.iter().map(|(graph, label)| format!("{graph:width$} {label}\n")).collect()
}

fn line(history: &History, row: usize, lanes: &mut Lanes, last: &BTreeMap<u32, usize>) -> (String, String) {
    let record = &history.records[row];
    let source = record.edges().find(|edge| edge.kind.is_some());
    let place = lanes.place(record.entity());
    let start = source.map(|edge| lanes.place(history.records[edge.start].entity()));
    let mut marks = vec![(place, if row == history.found { '*' } else { 'o' })];
    marks.extend(start.map(|start| (start, '+')));
    let graph = lanes.drawn(&marks, start.map(|start| (start, place)));
    lanes.end(row, last);
    let from = source.map(|edge| format!(", kind {} from {}", edge.kind.unwrap_or(0), name(&history.records[edge.start])));
    (graph.trim_end().to_string(), name(record) + &from.unwrap_or_default())
}

#[cfg(test)]
mod tests {
    use super::*;
    use viewer::{Direction, Record};

    #[test]
    fn log_k_backward() {
        let records = vec![
            Record::E { entity: 1, time: 10 },
            Record::E { entity: 2, time: 20 },
            Record::V { entity: 2, time: 30, kind: 7, previous: 1, source: 0 },
        ];
        let text = text(&History::new(Direction::Backward, records));
        assert_eq!(text, "o   1 at 10\n| o 2 at 20\n+-* 2 at 30, kind 7 from 1 at 10\n");
    }

    #[test]
    fn a_free_lane_is_taken_again() {
        let records = vec![
            Record::S { entity: 1, time: 1 },
            Record::D { entity: 2, time: 2, kind: 1, source: 0 },
            Record::D { entity: 3, time: 3, kind: 1, source: 1 },
            Record::D { entity: 4, time: 4, kind: 1, source: 2 },
        ];
        let text = text(&History::new(Direction::Forward, records));
        assert_eq!(
            text,
            "*   1 at 1\n+-o 2 at 2, kind 1 from 1 at 1\no-+ 3 at 3, kind 1 from 2 at 2\n+-o 4 at 4, kind 1 from 3 at 3\n"
        );
    }

    #[test]
    fn no_records_no_lines() {
        assert_eq!(text(&History::new(Direction::Backward, Vec::new())), "");
    }
}
