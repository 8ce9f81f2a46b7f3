//! A case: the calls that a seed and an index give.

use calls::{Fields, Memory, Name};
use reference::listing;
use reference::random::{self, Random};
use reference::{log, Question, WORK};

use crate::call::{Call, Pattern};
use crate::guard::{announce, Edge};
use crate::lengths::any_length;
use crate::recorders::Kept;
use crate::tally::Tally;
use crate::{answers, compare, logs, recorders};

#[derive(Clone, Copy, Debug, PartialEq, Eq)]
pub struct Case {
    pub seed: u64,
    pub index: u64,
}

impl Case {
    /// Runs the case's calls and counts them; else says which one differs, and how.
    pub fn run(self, library: impl Fn(Name, &Question, Memory) -> Fields + Copy, tally: &mut Tally) -> Result<(), String> {
        let Case { seed, index } = self;
        announce(seed, index);
        let _named = NamedOnPanic(self);
        let mut kept = Kept::default();
        for call in self.calls() {
            let compared = if call.name.is_recorders() { kept.run(&call, library) } else { compare::run(&call, library) };
            match compared {
                Ok(fields) => tally.add(&call, &fields),
                Err(difference) => {
                    return Err(format!("case {index}: {difference}: fuzz/run --seed {seed} --case {index}\n{call:?}"))
                }
            }
        }
        tally.cases += 1;
        Ok(())
    }

    pub fn calls(self) -> Vec<Call> {
        let random = &mut Random::new(Random::new(self.seed).number() ^ Random::new(!self.index).number());
        match random.below(9) {
            0 | 1 => vec![hash(random)],
            2..5 => on_log(random),
            5..8 => on_answer(random),
            _ => recorders::any(random),
        }
    }
}

/// Says the case if the Rust version or the making of its inputs panics.
struct NamedOnPanic(Case);

impl Drop for NamedOnPanic {
    fn drop(&mut self) {
        if std::thread::panicking() {
            eprintln!("panic in case {}: fuzz/run --seed {} --case {}", self.0.index, self.0.seed, self.0.index);
        }
    }
}

/// A call with nothing lent but its input, its memory placed anyhow.
pub fn blank(random: &mut Random, name: Name, input: Vec<u8>) -> Call {
    let edges = [(); 4].map(|_| if random.once_in(2) { Edge::Start } else { Edge::End });
    let pattern = Pattern { first: random.byte(), step: [0, 1, random.byte()][random.index(3)] };
    let question = Question::new(0, 0, 0);
    Call { name, question, commitment: Vec::new(), input, work: 0, out: 0, pattern, damage: Vec::new(), edges }
}

/// A message of some blocks, mostly few, and often near a block's end or where the padding takes another block.
fn hash(random: &mut Random) -> Call {
    let blocks = if random.once_in(50) { random.index(1_000) } else { random.index(5) };
    let rest = [0, 1, 55, 56, 57, 63, random.index(64), random.index(64)][random.index(8)];
    let message = random.bytes(64 * blocks + rest);
    let out = any_length(random, 32);
    Call { out, ..blank(random, Name::Hash, message) }
}

/// The calls on one log, each with its own memory.
fn on_log(random: &mut Random) -> Vec<Call> {
    let logs::Log { records, bytes } = logs::any(random);
    let question = if random.once_in(16) { anything(random) } else { random::question(random, &records) };
    let text = listing::text(&bytes).len();
    let (count, length) = match log::read(&bytes) {
        Ok(sound) => (sound.len(), answers::length(&question, &sound)),
        Err(_) => (records.len(), 500),
    };
    let blank = |random: &mut Random, name| blank(random, name, bytes.clone());
    let work = |random: &mut Random| any_length(random, WORK * count);
    vec![
        blank(random, Name::Log),
        Call { out: any_length(random, text), ..blank(random, Name::Listing) },
        Call { work: work(random), out: any_length(random, 32), ..blank(random, Name::Commitment) },
        Call { question, work: work(random), out: any_length(random, length), ..blank(random, Name::Answer) },
    ]
}

/// A question about nothing in particular.
fn anything(random: &mut Random) -> Question {
    Question { until: random.number(), ..Question::new(random.byte(), random.number() as u32, random.number()) }
}

/// The check of an answer, and its records.
fn on_answer(random: &mut Random) -> Vec<Call> {
    let answers::Asked { question, commitment, answer, work, out } = answers::any(random);
    let call = |name| {
        let (work, out) = (any_length(random, work), any_length(random, out));
        Call { question, commitment: commitment.clone(), work, out, ..blank(random, name, answer.clone()) }
    };
    [Name::Check, Name::Records].map(call).into()
}
