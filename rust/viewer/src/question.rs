//! What is asked.

use std::error::Error;
use std::fmt;
use std::str::FromStr;

/// Which version a question seeks, and which way it looks from there: the [`Relation`] and the [`Way`] in one. Each direction has one value, so
/// equal questions are equal and have one hash value; a number that is none of these is turned away where it is converted, and a call on any
/// number at all is in [`plain`](crate::plain). Direction 6, which seeks all versions between two times, has a type of its own, [`Span`].
#[derive(Clone, Copy, Debug, PartialEq, Eq, Hash)]
pub enum Direction {
    VersionOnly = 0,
    Backward = 1,
    Forward = 2,
    VersionOnlyAfter = 3,
    BackwardAfter = 4,
    ForwardAfter = 5,
}

/// Which version of the entity is sought.
#[derive(Clone, Copy, Debug, PartialEq, Eq, Hash)]
pub enum Relation {
    /// The last one at or before the time.
    AtOrBefore,
    /// The first one at or after the time.
    AtOrAfter,
}

/// Which way a trace goes from the found version.
#[derive(Clone, Copy, Debug, PartialEq, Eq, Hash)]
pub enum Way {
    /// To what led to it.
    Backward,
    /// To what came of it.
    Forward,
}

/// All directions that seek one version, by rising number.
pub const DIRECTIONS: [Direction; 6] = [
    Direction::VersionOnly,
    Direction::Backward,
    Direction::Forward,
    Direction::VersionOnlyAfter,
    Direction::BackwardAfter,
    Direction::ForwardAfter,
];

impl Direction {
    /// The direction as a question's first number.
    pub fn number(self) -> u8 {
        self as u8
    }

    /// Which version is sought.
    pub fn relation(self) -> Relation {
        match self {
            Direction::VersionOnly | Direction::Backward | Direction::Forward => Relation::AtOrBefore,
            Direction::VersionOnlyAfter | Direction::BackwardAfter | Direction::ForwardAfter => Relation::AtOrAfter,
        }
    }

    /// Which way the trace goes; none if only the version is asked for.
    pub fn way(self) -> Option<Way> {
        match self {
            Direction::VersionOnly | Direction::VersionOnlyAfter => None,
            Direction::Backward | Direction::BackwardAfter => Some(Way::Backward),
            Direction::Forward | Direction::ForwardAfter => Some(Way::Forward),
        }
    }

    fn word(self) -> &'static str {
        match self {
            Direction::VersionOnly => "only",
            Direction::Backward => "backward",
            Direction::Forward => "forward",
            Direction::VersionOnlyAfter => "only-after",
            Direction::BackwardAfter => "backward-after",
            Direction::ForwardAfter => "forward-after",
        }
    }
}

impl From<Direction> for u8 {
    fn from(direction: Direction) -> u8 {
        direction.number()
    }
}

/// 6 is a [`Span`]'s, and a number above it is row 11 for every call that is asked.
impl TryFrom<u8> for Direction {
    type Error = UnknownDirection;

    fn try_from(number: u8) -> Result<Direction, UnknownDirection> {
        DIRECTIONS.into_iter().find(|direction| direction.number() == number).ok_or(UnknownDirection)
    }
}

/// The word that [`FromStr`] reads: `only`, `backward` or `forward`, or one of these with `-after` behind it.
impl fmt::Display for Direction {
    fn fmt(&self, text: &mut fmt::Formatter) -> fmt::Result {
        text.pad(self.word())
    }
}

/// A direction's word, or its number in one digit.
impl FromStr for Direction {
    type Err = UnknownDirection;

    fn from_str(word: &str) -> Result<Direction, UnknownDirection> {
        let named = |direction: &Direction| word == direction.word() || word == direction.number().to_string();
        DIRECTIONS.into_iter().find(named).ok_or(UnknownDirection)
    }
}

/// A text or a number that is no direction of a question for one version.
#[derive(Clone, Copy, Debug, PartialEq, Eq, Hash)]
pub struct UnknownDirection;

impl fmt::Display for UnknownDirection {
    fn fmt(&self, text: &mut fmt::Formatter) -> fmt::Result {
        text.write_str("none of ")?;
        DIRECTIONS.iter().try_for_each(|direction| write!(text, "{direction}, "))?;
        text.write_str("0 to 5")
    }
}

impl Error for UnknownDirection {}

/// Which version of the entity stood at the time or was the next one, and what led to it or came of it.
#[derive(Clone, Copy, Debug, PartialEq, Eq, Hash)]
pub struct Question {
    pub direction: Direction,
    pub entity: u32,
    pub time: u64,
}

/// All versions of the entity between two times, ends included: direction 6. Where `from` is above `until`, every call meets row 25.
#[derive(Clone, Copy, Debug, PartialEq, Eq, Hash)]
pub struct Span {
    pub entity: u32,
    pub from: u64,
    pub until: u64,
}

impl Span {
    /// The direction as a question's first number.
    pub const DIRECTION: u8 = 6;
    /// The direction's word, beside those of [`Direction`].
    pub const WORD: &'static str = "between";
}

#[cfg(test)]
mod tests {
    use super::*;
    use std::collections::HashSet;

    #[test]
    fn a_direction_is_its_number() {
        for number in 0..=255 {
            match Direction::try_from(number) {
                Ok(direction) => assert_eq!((number < 6, u8::from(direction)), (true, number)),
                Err(unknown) => assert_eq!((number < 6, unknown), (false, UnknownDirection)),
            }
        }
        assert!(DIRECTIONS.iter().all(|direction| direction.number() != Span::DIRECTION && direction.word() != Span::WORD));
    }

    #[test]
    fn a_direction_has_a_word_and_a_digit() {
        let words = ["only", "backward", "forward", "only-after", "backward-after", "forward-after"];
        for (direction, word) in DIRECTIONS.into_iter().zip(words) {
            assert_eq!(direction.to_string(), word);
            assert_eq!(word.parse(), Ok(direction));
            assert_eq!(direction.number().to_string().parse(), Ok(direction));
        }
        for word in ["6", "", "Backward", "00", "only ", "version only", "after", "-after", "only after"] {
            assert_eq!(word.parse::<Direction>(), Err(UnknownDirection), "{word}");
        }
        let unknown = "none of only, backward, forward, only-after, backward-after, forward-after, 0 to 5";
        assert_eq!(UnknownDirection.to_string(), unknown);
    }

    /// 3, 4 and 5 are 0, 1 and 2 by the other relation.
    #[test]
    fn a_direction_is_a_relation_and_a_way() {
        let ways = [None, Some(Way::Backward), Some(Way::Forward)];
        for (place, direction) in DIRECTIONS.into_iter().enumerate() {
            assert_eq!(direction.way(), ways[place % 3], "{direction}");
            assert_eq!(direction.relation() == Relation::AtOrAfter, place >= 3, "{direction}");
        }
    }

    #[test]
    fn one_question_has_one_value() {
        let ways = [Direction::Backward, Direction::try_from(1).unwrap(), "1".parse().unwrap(), "backward".parse().unwrap()];
        let asked = |direction| Question { direction, entity: 2, time: 35 };
        assert_eq!(ways.map(asked).into_iter().collect::<HashSet<_>>().len(), 1);
        assert_eq!(DIRECTIONS.map(asked).into_iter().collect::<HashSet<_>>().len(), 6);
    }
}
