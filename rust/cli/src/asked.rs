//! What is asked: about one version, or for all versions between two times.

use std::fmt;

use viewer::{Question, Relation, Span, Way};

#[derive(Clone, Copy, Debug, PartialEq, Eq)]
pub enum Asked {
    One(Question),
    All(Span),
}

impl Asked {
    /// The words of a participant's program: direction, entity and time and, between two times, the later one.
    pub fn words(&self) -> Vec<String> {
        match *self {
            Asked::One(Question { direction, entity, time }) => vec![direction.number().to_string(), entity.to_string(), time.to_string()],
            Asked::All(Span { entity, from, until }) => {
                vec![Span::DIRECTION.to_string(), entity.to_string(), from.to_string(), until.to_string()]
            }
        }
    }

    /// The question as the Rust version has it.
    pub fn for_reference(&self) -> reference::Question {
        match *self {
            Asked::One(Question { direction, entity, time }) => reference::Question::new(direction.number(), entity, time),
            Asked::All(Span { entity, from, until }) => reference::Question::between(entity, from, until),
        }
    }
}

/// In words.
impl fmt::Display for Asked {
    fn fmt(&self, text: &mut fmt::Formatter) -> fmt::Result {
        match self {
            Asked::One(question) => {
                let relation = match question.direction.relation() {
                    Relation::AtOrBefore => "at",
                    Relation::AtOrAfter => "at or after",
                };
                let part = match question.direction.way() {
                    None => "version only",
                    Some(Way::Backward) => "backward",
                    Some(Way::Forward) => "forward",
                };
                write!(text, "{} {relation} {}, {part}", question.entity, question.time)
            }
            Asked::All(Span { entity, from, until }) => write!(text, "{entity} from {from} to {until}, all versions"),
        }
    }
}

#[cfg(test)]
mod tests {
    use super::*;
    use viewer::DIRECTIONS;

    #[test]
    fn questions_have_words_and_numbers() {
        let asked = DIRECTIONS.map(|direction| Asked::One(Question { direction, entity: 2, time: 21 }));
        let words = asked.map(|asked| asked.to_string());
        assert_eq!(words[..3], ["2 at 21, version only", "2 at 21, backward", "2 at 21, forward"]);
        assert_eq!(words[3..], ["2 at or after 21, version only", "2 at or after 21, backward", "2 at or after 21, forward"]);
        assert_eq!(asked[4].words(), ["4", "2", "21"]);
        let span = Asked::All(Span { entity: 1, from: 10, until: 40 });
        assert_eq!(span.to_string(), "1 from 10 to 40, all versions");
        assert_eq!(span.words(), ["6", "1", "10", "40"]);
    }
}
