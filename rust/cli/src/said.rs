//! What an accepted answer says.

use viewer::{Verdict, Version};

use crate::asked::Asked;
use crate::history::History;

#[derive(Debug, PartialEq, Eq)]
pub enum Said {
    /// Of one version, with the history that the answer shows.
    One(Verdict, History),
    /// Of a span: the log has no version of the entity.
    NoEntity,
    /// All versions in the span.
    Listed(Vec<Version>),
}

impl Said {
    /// The verdict in words.
    pub fn verdict(&self, asked: &Asked) -> String {
        let entity = asked.for_reference().entity;
        match self {
            Said::NoEntity | Said::One(Verdict::NoEntity, _) => "no entity".to_string(),
            Said::One(Verdict::NotYet { first }, _) => format!("not yet: the first version of {entity} is at {first}"),
            Said::One(Verdict::NoneSoLate { last }, _) => format!("none so late: the last version of {entity} is at {last}"),
            Said::One(Verdict::Found { time, count: 0 }, _) => format!("found {entity} at {time}"),
            Said::One(Verdict::Found { time, count }, _) => format!("found {entity} at {time}, {}", counted(*count, "record")),
            Said::Listed(versions) => format!("listed {}", counted(versions.len() as u64, "version")),
        }
    }

    /// A line a version: those of the history, or of the list.
    pub fn lines(&self) -> String {
        match self {
            Said::One(_, history) => history.text(),
            Said::NoEntity => String::new(),
            Said::Listed(versions) => versions.iter().map(|Version { entity, time }| format!("{entity} at {time}\n")).collect(),
        }
    }
}

/// A number of things, of which the word is that for one.
fn counted(count: u64, one: &str) -> String {
    match count {
        1 => format!("1 {one}"),
        _ => format!("{count} {one}s"),
    }
}

#[cfg(test)]
mod tests {
    use super::*;
    use viewer::{Direction, Question, Span};

    #[test]
    fn verdicts_have_words() {
        let asked = Asked::One(Question { direction: Direction::Forward, entity: 2, time: 21 });
        for (given, words) in [
            (Verdict::NoEntity, "no entity"),
            (Verdict::NotYet { first: 20 }, "not yet: the first version of 2 is at 20"),
            (Verdict::NoneSoLate { last: 30 }, "none so late: the last version of 2 is at 30"),
            (Verdict::Found { time: 30, count: 0 }, "found 2 at 30"),
            (Verdict::Found { time: 30, count: 1 }, "found 2 at 30, 1 record"),
            (Verdict::Found { time: 30, count: 2 }, "found 2 at 30, 2 records"),
        ] {
            assert_eq!(Said::One(given, History::new(Direction::Forward, Vec::new())).verdict(&asked), words);
        }
    }

    #[test]
    fn a_list_has_a_line_a_version() {
        let asked = Asked::All(Span { entity: 2, from: 20, until: u64::MAX });
        let listed = |times: &[u64]| Said::Listed(times.iter().map(|time| Version { entity: 2, time: *time }).collect());
        for (said, verdict, lines) in [
            (Said::NoEntity, "no entity", ""),
            (listed(&[]), "listed 0 versions", ""),
            (listed(&[20]), "listed 1 version", "2 at 20\n"),
            (listed(&[20, u64::MAX]), "listed 2 versions", "2 at 20\n2 at 18446744073709551615\n"),
        ] {
            assert_eq!((said.verdict(&asked).as_str(), said.lines().as_str()), (verdict, lines));
        }
    }
}
