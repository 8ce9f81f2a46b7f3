//! Questions and verdicts (section Questions and answers; requests A1 and A2).

use crate::graph::Name;
use crate::refusal::{refuse, Refusal};
use crate::tree::Subtree;

/// The directions are the numbers below this one.
pub const DIRECTIONS: u8 = 7;

/// The direction of a question for all versions between two times; those below it seek one version.
pub const BETWEEN: u8 = 6;

/// A direction, an entity and a time.
#[derive(Clone, Copy, Debug, PartialEq, Eq)]
pub struct Question {
    pub direction: u8,
    pub entity: u32,
    pub time: u64,
    /// Where the span ends that begins at the time, in direction 6; without effect in the others.
    pub until: u64,
}

/// Which version is sought: the one with the greatest time at or before t, or with the least time at or after t.
#[derive(Clone, Copy, Debug, PartialEq, Eq)]
pub enum Relation {
    AtOrBefore,
    AtOrAfter,
}

/// Which way a trace goes from the found version.
#[derive(Clone, Copy, Debug, PartialEq, Eq)]
pub enum Way {
    Backward,
    Forward,
}

/// A known question: the entity, and what is sought of it.
#[derive(Clone, Copy, Debug, PartialEq, Eq)]
pub struct Asked {
    pub entity: u32,
    pub sought: Sought,
}

#[derive(Clone, Copy, Debug, PartialEq, Eq)]
pub enum Sought {
    One(One),
    All(Span),
}

/// One version is sought. Without a way only the version is asked for.
#[derive(Clone, Copy, Debug, PartialEq, Eq)]
pub struct One {
    pub relation: Relation,
    pub way: Option<Way>,
    pub time: u64,
}

/// All versions between two times are sought, ends included.
#[derive(Clone, Copy, Debug, PartialEq, Eq)]
pub struct Span {
    pub from: u64,
    pub until: u64,
}

#[derive(Clone, Debug, PartialEq, Eq)]
pub enum Verdict {
    NoEntity,
    /// With the least key known at the stop, under a log's commitment the entity's first time.
    NotYet { first: u64 },
    /// With the greatest key known at the stop, under a log's commitment the entity's last time.
    NoneSoLate { last: u64 },
    Found { time: u64, count: u64 },
    /// The names that the opened L strings have, in turn.
    Listed(Vec<Name>),
}

impl Question {
    /// A question for one version.
    pub const fn new(direction: u8, entity: u32, time: u64) -> Self {
        Question { direction, entity, time, until: 0 }
    }

    /// A question for all versions between two times.
    pub const fn between(entity: u32, from: u64, until: u64) -> Self {
        Question { direction: BETWEEN, entity, time: from, until }
    }

    /// What a known question asks; any other meets 11 or 25.
    pub fn asked(&self) -> Result<Asked, Refusal> {
        let sought = match self.direction {
            0 => self.one(Relation::AtOrBefore, None),
            1 => self.one(Relation::AtOrBefore, Some(Way::Backward)),
            2 => self.one(Relation::AtOrBefore, Some(Way::Forward)),
            3 => self.one(Relation::AtOrAfter, None),
            4 => self.one(Relation::AtOrAfter, Some(Way::Backward)),
            5 => self.one(Relation::AtOrAfter, Some(Way::Forward)),
            BETWEEN if self.time > self.until => return refuse(25, 0),
            BETWEEN => Sought::All(Span { from: self.time, until: self.until }),
            _ => return refuse(11, 0),
        };
        Ok(Asked { entity: self.entity, sought })
    }

    fn one(&self, relation: Relation, way: Option<Way>) -> Sought {
        Sought::One(One { relation, way, time: self.time })
    }

    /// The way of the trace that is asked for; none if there is none.
    pub fn way(&self) -> Option<Way> {
        match self.asked().ok()?.sought {
            Sought::One(one) => one.way,
            Sought::All(_) => None,
        }
    }
}

impl One {
    /// The verdict with which the walk stops at a subtree of the entity's tree, known by its keys; none if it goes on.
    pub fn stop(&self, least: u64, greatest: u64) -> Option<Verdict> {
        match self.relation {
            Relation::AtOrBefore => (self.time < least).then_some(Verdict::NotYet { first: least }),
            Relation::AtOrAfter => (self.time > greatest).then_some(Verdict::NoneSoLate { last: greatest }),
        }
    }

    /// Whether the walk goes left at an N, else right.
    pub fn goes_left(&self, left: &Subtree, right: &Subtree) -> bool {
        match self.relation {
            Relation::AtOrBefore => self.time < right.least,
            Relation::AtOrAfter => self.time <= left.greatest,
        }
    }
}

impl Span {
    /// Whether a subtree of the entity's tree, known by its keys, is opened.
    pub fn meets(&self, least: u64, greatest: u64) -> bool {
        least <= self.until && greatest >= self.from
    }
}
