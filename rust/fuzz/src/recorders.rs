//! A running recorder's calls, one after the other on one memory, beside both Rust versions: the one that rebuilds, and the one that keeps what it
//! built. Of memory that was damaged it is only asked that calls end, touch nothing else, and leave it as it was if they are refused.

use calls::{plain_rust, Fields, Memory, Name};
use reference::log::Record;
use reference::offers::Offers;
use reference::places::{promised, slots, table_start, Table, SLOT};
use reference::random::Random;
use reference::recorder::{Recorder, UNIT};
use reference::{Question, Refusal};

use crate::call::Call;
use crate::case::blank;
use crate::guard::{Area, Input};
use crate::lengths::any_length;

/// The calls of a recorder's life: a start, then offers and questions, and another start now and then. Its memory is damaged once in three times.
pub fn any(random: &mut Random) -> Vec<Call> {
    let records = [0, 1, 2, 5, 12, 40][random.index(6)];
    let rest = if random.once_in(2) { 0 } else { random.index(UNIT) };
    let length = if random.once_in(12) { random.index(UNIT) } else { UNIT * (records + 1) + rest };
    let (offers, damaged) = (Offers::any(random), random.once_in(3));
    let mut calls = vec![start(random, length)];
    let mut taken = Recorder::start(length).ok();
    for _ in 0..random.index(records + 12) {
        let records = taken.as_ref().map_or(&[][..], Recorder::taken).to_vec();
        let mut call = match random.below(10) {
            0 | 1 => Call { out: any_length(random, 32), ..blank(random, Name::RecorderCommitment, Vec::new()) },
            2 if random.once_in(8) => {
                taken = Recorder::start(length).ok();
                start(random, length)
            }
            _ => {
                let offer = offers.next(random, &records);
                let _ = taken.as_mut().map(|taken| taken.take(&offer));
                blank(random, Name::RecorderTake, offer)
            }
        };
        if damaged && length > 0 && random.once_in(6) {
            call.damage = if random.once_in(3) { claim(random, length) } else { damage(random, &records, length) };
        }
        calls.push(call);
    }
    calls.push(Call { out: 32, ..blank(random, Name::RecorderCommitment, Vec::new()) });
    calls
}

fn start(random: &mut Random, length: usize) -> Call {
    Call { work: length, ..blank(random, Name::RecorderStart, Vec::new()) }
}

/// Bytes anywhere in the memory, or numbers in the header and in the slots that are in use.
fn damage(random: &mut Random, records: &[Record], length: usize) -> Vec<(usize, u8)> {
    let mut changes = Vec::new();
    for _ in 0..1 + random.index(8) {
        let table = [Table::Versions, Table::Trees, Table::Entities, Table::Groups][random.index(4)];
        let slot = random.index(records.len().max(1));
        let place = match random.below(6) {
            0 => random.index(length),
            1 => 4 * random.index(6) + 3,
            // entities and the links of the others
            _ if table == Table::Entities => table_start(table, length) + SLOT * slot + 4 * random.index(4) + 3,
            _ => table_start(table, length) + SLOT * slot + 76 + random.index(40),
        };
        let byte = [0, 1, 2, 3, records.len() as u8, 255, random.byte()][random.index(7)];
        changes.push((place.min(length - 1), byte));
    }
    changes
}

/// Numbers in the header that can be, whatever the tables hold: slots that were never written are then in use.
fn claim(random: &mut Random, length: usize) -> Vec<(usize, u8)> {
    let records = random.index(slots(length) + 1);
    let versions = random.index(records + 1);
    let entities = random.index(versions + 1);
    let numbers = [records, versions, entities, random.index(2 * slots(length) + 2)];
    let bytes = numbers.into_iter().flat_map(|number| (number as u32).to_be_bytes()).enumerate();
    bytes.filter(|(place, _)| *place < length).collect()
}

/// What a recorder's call leaves to the next: the library's memory, the memory of the Rust version that keeps what it built, and the one that
/// rebuilds, none if nothing is promised.
#[derive(Default)]
pub struct Kept {
    memory: Vec<u8>,
    running: Vec<u8>,
    rebuilt: Option<Recorder>,
}

/// What a call gives, and what it leaves of the record, the memory and the output.
struct Given {
    fields: Fields,
    record: Vec<u8>,
    memory: Vec<u8>,
    out: Vec<u8>,
    rest_is_kept: bool,
}

impl Kept {
    /// Runs a call both ways, and gives the result; else what differs.
    pub fn run(&mut self, call: &Call, library: impl Fn(Name, &Question, Memory) -> Fields) -> Result<Fields, String> {
        if call.name == Name::RecorderStart {
            self.memory = call.pattern.bytes(call.work);
            self.running = self.memory.clone();
        }
        self.damage(&call.damage);
        let given = self.given(call, library);
        let (expected, out) = self.expected(call);
        let before = std::mem::replace(&mut self.memory, given.memory);
        let refused = given.fields.get("number") != 0;
        if given.record != call.input {
            return Err("the record is changed".to_string());
        }
        if !given.rest_is_kept {
            return Err("a byte beside the memory or the output is written".to_string());
        }
        if (refused || call.name == Name::RecorderCommitment) && self.memory != before {
            return Err("the memory is changed".to_string());
        }
        if refused && given.out != call.pattern.bytes(call.out) {
            return Err("the output is changed".to_string());
        }
        if self.is_promised(call.name, &before) {
            if given.fields != expected {
                return Err(format!("the result is {:?}, and not {expected:?}", given.fields));
            }
            if given.out != out {
                return Err("the output differs".to_string());
            }
            self.promises()?;
        } else {
            self.running.clone_from(&self.memory);
        }
        Ok(given.fields)
    }

    fn damage(&mut self, changes: &[(usize, u8)]) {
        for &(place, byte) in changes {
            self.memory[place] = byte;
        }
        if !changes.is_empty() {
            self.running.clone_from(&self.memory);
            self.rebuilt = None;
        }
    }

    /// The result is fixed for a start, for memory that a start and calls left, and for memory with a header that they never leave.
    fn is_promised(&self, name: Name, before: &[u8]) -> bool {
        name == Name::RecorderStart || self.rebuilt.is_some() || !can_be(before)
    }

    /// The library's call, its memory beside forbidden pages; where it is only read, in pages that cannot be written.
    fn given(&self, call: &Call, library: impl Fn(Name, &Question, Memory) -> Fields) -> Given {
        let [_, record, memory, out] = call.edges;
        let mut out = Area::new(&call.pattern.bytes(call.out), out);
        if call.name == Name::RecorderCommitment {
            let memory = Input::new(&self.memory, memory);
            let lent = Memory { commitment: &[], input: memory.bytes(), work: &mut [], out: out.bytes_mut() };
            let fields = library(call.name, &call.question, lent);
            let rest_is_kept = out.rest_is_kept();
            return Given { fields, record: call.input.clone(), memory: memory.bytes().to_vec(), out: out.bytes().to_vec(), rest_is_kept };
        }
        let (record, mut memory) = (Input::new(&call.input, record), Area::new(&self.memory, memory));
        let lent = Memory { commitment: &[], input: record.bytes(), work: memory.bytes_mut(), out: out.bytes_mut() };
        let fields = library(call.name, &call.question, lent);
        let rest_is_kept = memory.rest_is_kept() && out.rest_is_kept();
        Given { fields, record: record.bytes().to_vec(), memory: memory.bytes().to_vec(), out: out.bytes().to_vec(), rest_is_kept }
    }

    /// What both Rust versions say, which must be the same: the result, and the output. A panic of theirs is a difference too.
    fn expected(&mut self, call: &Call) -> (Fields, Vec<u8>) {
        let mut out = call.pattern.bytes(call.out);
        let fields = match call.name {
            Name::RecorderCommitment => {
                let lent = Memory { commitment: &[], input: &self.running, work: &mut [], out: &mut out };
                plain_rust(call.name, &call.question, lent)
            }
            _ => {
                let lent = Memory { commitment: &[], input: &call.input, work: &mut self.running, out: &mut out };
                plain_rust(call.name, &call.question, lent)
            }
        };
        if let Some(rebuilt) = self.rebuilt(call) {
            let number = |row: Result<(), Refusal>| row.err().map_or((0, 0), |refusal| (refusal.number, refusal.position));
            assert_eq!((fields.get("number"), fields.get("position")), number(rebuilt), "the Rust versions differ");
        }
        (fields, out)
    }

    /// What the version that rebuilds says, and whether it has something to say.
    fn rebuilt(&mut self, call: &Call) -> Option<Result<(), Refusal>> {
        match call.name {
            Name::RecorderStart => {
                let started = Recorder::start(self.memory.len());
                let row = started.as_ref().map(|_| ()).map_err(|refusal| *refusal);
                self.rebuilt = started.ok();
                Some(row)
            }
            Name::RecorderTake => Some(self.rebuilt.as_mut()?.take(&call.input)),
            _ => {
                let enough = if call.out < 32 { Err(Refusal { number: 13, position: 0 }) } else { Ok(()) };
                Some(self.rebuilt.as_ref()?.commitment().and(enough))
            }
        }
    }

    /// All that is promised stands at its place, in the memory of both.
    fn promises(&self) -> Result<(), String> {
        let taken = self.rebuilt.as_ref().map_or(&[][..], Recorder::taken);
        for item in promised(taken, self.memory.len()) {
            if !item.is_in(&self.memory) {
                return Err(format!("{:?} is not at {}", item.what, item.place));
            }
            assert!(item.is_in(&self.running), "the Rust versions differ: {:?}", item.what);
        }
        Ok(())
    }
}

/// Whether a start and calls can leave such a header.
fn can_be(memory: &[u8]) -> bool {
    let number = |at: usize| u32::from_be_bytes(memory[at..at + 4].try_into().expect("four bytes")) as usize;
    memory.len() >= UNIT && number(0) <= slots(memory.len()) && number(4) <= number(0) && number(8) <= number(4)
}

#[cfg(test)]
mod tests {
    use super::*;
    use calls::proved;
    use reference::log::write;
    use reference::sample::log_k;

    fn call(name: Name, input: Vec<u8>) -> Call {
        Call { out: if name == Name::RecorderCommitment { 32 } else { 0 }, ..blank(&mut Random::new(1), name, input) }
    }

    /// Log K, taken record by record, and then asked for.
    fn life() -> Vec<Call> {
        let take = |record: &Record| call(Name::RecorderTake, write(&[*record]));
        let start = Call { work: 512 * 6, ..call(Name::RecorderStart, Vec::new()) };
        [start].into_iter().chain(log_k().iter().map(take)).chain([call(Name::RecorderCommitment, Vec::new())]).collect()
    }

    fn run(calls: &[Call], library: impl Fn(Name, &Question, Memory) -> Fields + Copy) -> Result<(), String> {
        let mut kept = Kept::default();
        calls.iter().try_for_each(|call| kept.run(call, library).map(|_| ()))
    }

    #[test]
    fn the_proved_library_agrees() {
        assert_eq!(run(&life(), proved), Ok(()));
    }

    /// Each byte that is promised after Log K, and no other, is told apart.
    #[test]
    fn each_promised_byte_is_compared() {
        let length = 512 * 6;
        let mut due = vec![false; length];
        for item in promised(&log_k(), length) {
            due[item.place..item.place + item.bytes.len()].fill(true);
        }
        assert_eq!(due.iter().filter(|due| **due).count(), 8 * 32 + 9 * 48);
        for place in (0..length).filter(|&place| place >= 24) {
            let wrong = |name: Name, question: &Question, memory: Memory| {
                let Memory { commitment, input, work, out } = memory;
                let fields = proved(name, question, Memory { commitment, input, work: &mut *work, out });
                if name == Name::RecorderTake && input == write(&log_k()[3..]) {
                    work[place] ^= 0x80;
                }
                fields
            };
            assert_eq!(run(&life()[..5], wrong).is_err(), due[place], "{place}");
        }
    }

    #[test]
    fn each_field_is_compared() {
        for altered in ["number", "position"] {
            for name in [Name::RecorderStart, Name::RecorderTake, Name::RecorderCommitment] {
                let wrong = |called: Name, question: &Question, memory: Memory| {
                    let mut fields = proved(called, question, memory);
                    if called == name {
                        fields.set(altered, fields.get(altered) ^ 1);
                    }
                    fields
                };
                assert!(run(&life(), wrong).is_err(), "{altered} of {name:?}");
            }
        }
    }
}
