//! The exported calls, each with what it takes and the fields of its result, of the proved library and of the Rust version alike.

#![forbid(unsafe_code)]

use std::fmt;

use reference::hash::OneByOne;
use reference::Question;
use viewer::plain as exported;

#[derive(Clone, Copy, Debug, PartialEq, Eq)]
pub enum Name {
    Hash,
    Log,
    Listing,
    Commitment,
    Answer,
    Check,
    Records,
    RecorderStart,
    RecorderTake,
    RecorderCommitment,
}

pub const NAMES: [Name; 10] = [
    Name::Hash,
    Name::Log,
    Name::Listing,
    Name::Commitment,
    Name::Answer,
    Name::Check,
    Name::Records,
    Name::RecorderStart,
    Name::RecorderTake,
    Name::RecorderCommitment,
];

impl Name {
    /// The name in small letters, as the exported function has it behind `bozhtagul_`.
    pub fn word(self) -> String {
        let mut word = String::new();
        for letter in format!("{self:?}").chars() {
            if letter.is_uppercase() && !word.is_empty() {
                word.push('_');
            }
            word.push(letter.to_ascii_lowercase());
        }
        word
    }

    /// Whether it is a call of a running recorder.
    pub fn is_recorders(self) -> bool {
        matches!(self, Name::RecorderStart | Name::RecorderTake | Name::RecorderCommitment)
    }

    pub fn of_word(word: &str) -> Option<Name> {
        NAMES.into_iter().find(|name| name.word() == word)
    }
}

/// The memory that a call is lent; what it does not take is not looked at.
pub struct Memory<'a> {
    pub commitment: &'a [u8],
    /// The message, the log, the answer or the record; a recorder's memory where it is only read.
    pub input: &'a [u8],
    /// The work area, or a recorder's memory.
    pub work: &'a mut [u8],
    pub out: &'a mut [u8],
}

/// No result has more fields.
const MOST_FIELDS: usize = 5;

/// A result, field by field. Nothing of it is on the heap, so that the benchmark counts only what a call takes there.
#[derive(Clone, Copy, Default, PartialEq, Eq)]
pub struct Fields {
    names: &'static [&'static str],
    values: [u64; MOST_FIELDS],
}

impl Fields {
    pub fn names(&self) -> &'static [&'static str] {
        self.names
    }

    /// The field of that name, 0 if there is none.
    pub fn get(&self, name: &str) -> u64 {
        self.names.iter().position(|other| *other == name).map_or(0, |place| self.values[place])
    }

    /// Alters the field of that name, if there is one.
    pub fn set(&mut self, name: &str, value: u64) {
        if let Some(place) = self.names.iter().position(|other| *other == name) {
            self.values[place] = value;
        }
    }
}

impl fmt::Debug for Fields {
    fn fmt(&self, text: &mut fmt::Formatter) -> fmt::Result {
        text.debug_list().entries(self.names.iter().zip(self.values)).finish()
    }
}

macro_rules! fields {
    ($result:expr, $($field:ident)+) => {{
        let result = $result;
        let mut given = [$(result.$field),+].into_iter();
        Fields { names: &[$(stringify!($field)),+], values: std::array::from_fn(|_| given.next().unwrap_or(0)) }
    }};
}

/// A side's calls: the functions of both have the same arguments, and their results the same fields.
macro_rules! side {
    ($(#[$comment:meta])* $side:ident, $calls:ident) => {
        $(#[$comment])*
        #[inline]
        pub fn $side(name: Name, question: &Question, memory: Memory) -> Fields {
            let Question { direction, entity, time, until } = *question;
            let Memory { commitment, input, work, out } = memory;
            match name {
                Name::Hash => fields!($calls::hash(input, out), number position),
                Name::Log => fields!($calls::log(input), number position length),
                Name::Listing => fields!($calls::listing(input, out), number position length),
                Name::Commitment => fields!($calls::commitment(input, work, out), number position),
                Name::Answer => fields!($calls::answer(direction, entity, time, until, input, work, out), number position length),
                Name::Check => {
                    let checked = $calls::check(direction, entity, time, until, commitment, input, work, out);
                    fields!(checked, number position verdict time count)
                }
                Name::Records => fields!($calls::records(direction, entity, time, until, commitment, input, work), start length),
                Name::RecorderStart => fields!($calls::recorder_start(work), number position),
                Name::RecorderTake => fields!($calls::recorder_take(input, work), number position),
                Name::RecorderCommitment => fields!($calls::recorder_commitment(input, out), number position),
            }
        }
    };
}

side! {
    /// The proved library's call.
    proved, exported
}
side! {
    /// The Rust version's call.
    plain_rust, reference
}

/// The Rust version's call with every string hashed by itself; none for a call that builds no trees.
#[inline]
pub fn one_by_one(name: Name, question: &Question, memory: Memory) -> Option<Fields> {
    let Memory { input, work, out, .. } = memory;
    match name {
        Name::Commitment => Some(fields!(reference::commitment_by(&mut OneByOne, input, work, out), number position)),
        Name::Answer => Some(fields!(reference::answer_by(&mut OneByOne, question, input, work, out), number position length)),
        _ => None,
    }
}
