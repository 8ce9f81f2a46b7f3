//! Questions with commitments and answers: honest and forged ones, then changed by pieces, by what they show and by bytes.

mod bases;
mod posed;
mod strings;
mod traces;

use reference::fields::u32_at;
use reference::forge::Pieces;
use reference::host::Host;
use reference::log::Record;
use reference::random::{self, near, Random};
use reference::Question;

use posed::Posed;

/// What a check is asked.
pub struct Asked {
    pub question: Question,
    pub commitment: Vec<u8>,
    pub answer: Vec<u8>,
    /// Bytes of work area for the records that the trace header claims, if it may claim them.
    pub work: usize,
    /// Bytes of output for a version of each leaf.
    pub out: usize,
}

/// Any: as it is now and then, else with some changes, mostly one.
pub fn any(random: &mut Random) -> Asked {
    let mut posed = bases::any(random);
    for _ in 0..[0, 1, 1, 1, 2, 3][random.index(6)] {
        change(random, &mut posed);
    }
    let mut answer = posed.pieces.bytes();
    if random.once_in(10) {
        answer = random::damaged_answer(random, &answer);
    }
    let (work, out) = (work(&posed.pieces), list(&posed.pieces));
    Asked { work, out, question: posed.question, commitment: posed.commitment, answer }
}

fn change(random: &mut Random, posed: &mut Posed) {
    match random.below(16) {
        0 => edit_question(random, &mut posed.question),
        1 => edit_commitment(random, &mut posed.commitment),
        2 => splice(random, posed),
        3 => strings::reorder(random, &mut posed.pieces.strings),
        4.. if !posed.pieces.records.is_empty() && !random.once_in(4) => traces::edit_trace(random, posed),
        _ => strings::edit(random, posed),
    }
}

fn edit_question(random: &mut Random, question: &mut Question) {
    match random.below(4) {
        0 => question.direction = if random.once_in(2) { random.byte() } else { random::known_direction(random) },
        1 => question.entity = near(random, u64::from(question.entity)) as u32,
        2 => question.until = near(random, question.until),
        _ => question.time = near(random, question.time),
    }
}

/// Another length, some bits, any bytes, or what another answer fits.
fn edit_commitment(random: &mut Random, commitment: &mut Vec<u8>) {
    match random.below(4) {
        0 => commitment.resize([0, 1, 31, 33, 64][random.index(5)], 7),
        1 => commitment.iter_mut().take(1 + random.index(32)).for_each(|byte| *byte ^= 1),
        2 => *commitment = random.bytes(32),
        _ => *commitment = bases::any(random).commitment,
    }
}

/// Pieces of another answer, to another question about the same log or to one about another.
fn splice(random: &mut Random, posed: &mut Posed) {
    let foreign = bases::any(random).pieces;
    let other = posed.beside.clone().filter(|_| random.once_in(2)).unwrap_or(foreign);
    let own = &mut posed.pieces;
    match random.below(5) {
        0 => own.strings = other.strings,
        1 => own.records = other.records,
        2 => (own.header, own.records) = (other.header, other.records),
        3 => {
            let from = random.index(own.strings.len() + 1);
            own.strings.truncate(from);
            own.strings.extend(other.strings.into_iter().skip(from));
        }
        _ => own.records.extend(other.records),
    }
}

fn work(pieces: &Pieces) -> usize {
    let claimed = pieces.header.as_ref().filter(|header| header.len() == 5).map_or(0, |header| u32_at(header, 1) as usize);
    reference::WORK * if claimed > reference::log::MOST_RECORDS { pieces.records.len() } else { claimed }
}

fn list(pieces: &Pieces) -> usize {
    reference::LIST_ENTRY * pieces.strings.iter().filter(|string| string.first() == Some(&b'L')).count()
}

/// The length of the defined answer about a sound log.
pub fn length(question: &Question, records: &[Record]) -> usize {
    defined(&Host::new(records), question).len()
}

/// The defined answer; for an unknown question, which has none, that of the version alone.
fn defined(host: &Host, question: &Question) -> Vec<u8> {
    let direction = question.asked().map_or(0, |_| question.direction);
    host.answer(&Question { direction, ..*question })
}
