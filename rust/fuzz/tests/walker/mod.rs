//! The check of a span once more, with what may be wrong with it as settings.

use calls::{Fields, Memory, Name};
use reference::fields::{u32_at, u64_at};
use reference::sha256::sha256;
use reference::tree::Subtree;
use reference::{Question, LISTED, LIST_ENTRY, NO_ENTITY};

#[derive(Clone, Copy)]
pub struct Walker {
    /// The most N strings on a path.
    pub nodes: usize,
    /// The right of an N before its left.
    pub right_first: bool,
    /// The list has the entity asked for and the keys, and not what the leaves say.
    pub by_keys: bool,
    /// Row 13 before row 18.
    pub output_first: bool,
}

/// A row and its position.
type Row = (u64, usize);

struct Walk<'a> {
    walker: Walker,
    question: &'a Question,
    answer: &'a [u8],
    place: usize,
    list: Vec<u8>,
}

impl Walker {
    pub const RIGHT: Walker = Walker { nodes: 16, right_first: false, by_keys: false, output_first: false };

    /// What the check gives and leaves.
    pub fn check(self, question: &Question, memory: Memory) -> Fields {
        let Memory { commitment, input, work, out } = memory;
        work.fill(0);
        let mut walk = Walk { walker: self, question, answer: input, place: 0, list: Vec::new() };
        match walk.whole(commitment, out) {
            Err((number, position)) => result([number, position as u64, 0, 0]),
            Ok(verdict) => result([0, 0, verdict, (walk.list.len() / LIST_ENTRY) as u64]),
        }
    }
}

/// A result of the check, with these fields set.
fn result([number, position, verdict, count]: [u64; 4]) -> Fields {
    // of a refused call, so that all other fields are 0
    let none = Memory { commitment: &[], input: &[], work: &mut [], out: &mut [] };
    let mut fields = calls::plain_rust(Name::Check, &Question::new(255, 0, 0), none);
    for (name, value) in [("number", number), ("position", position), ("verdict", verdict), ("count", count)] {
        fields.set(name, value);
    }
    fields
}

impl<'a> Walk<'a> {
    /// The rows by their order; writes the list.
    fn whole(&mut self, commitment: &[u8], out: &mut [u8]) -> Result<u64, Row> {
        if self.question.time > self.question.until {
            return Err((25, 0));
        }
        let Ok(commitment) = commitment.try_into() else {
            return Err((14, 0));
        };
        let root = self.open(b'R', 65, commitment)?;
        let verdict = match self.entity(Subtree::at(root, 17))? {
            None => NO_ENTITY,
            Some(tree) => {
                self.versions(&tree, self.walker.nodes)?;
                LISTED
            }
        };
        let (extra, short) = (self.place < self.answer.len(), out.len() < self.list.len());
        match (extra, short) {
            (true, short) if !(short && self.walker.output_first) => Err((18, self.place)),
            (_, true) => Err((13, 0)),
            _ => {
                out[..self.list.len()].copy_from_slice(&self.list);
                Ok(verdict)
            }
        }
    }

    /// A string by 15, 16, 15, 17; a width of 0 has no letter due.
    fn open(&mut self, letter: u8, width: usize, due: &[u8; 32]) -> Result<&'a [u8], Row> {
        let (start, rest) = (self.place, &self.answer[self.place..]);
        match rest.first() {
            None => return Err((15, start)),
            Some(found) if *found != letter || width == 0 => return Err((16, start)),
            Some(_) => {}
        }
        let string = rest.get(..width).ok_or((15, start))?;
        self.place += width;
        if sha256(string) == *due { Ok(string) } else { Err((17, start)) }
    }

    /// The entity's tree.
    fn entity(&mut self, mut known: Subtree) -> Result<Option<Subtree>, Row> {
        let entity = u64::from(self.question.entity);
        while (known.least..=known.greatest).contains(&entity) {
            if known.least == known.greatest {
                return Ok(Some(Subtree::at(self.open(b'G', 57, &known.digest)?, 9)));
            }
            let string = self.open(b'P', 97, &known.digest)?;
            let (left, right) = (Subtree::at(string, 1), Subtree::at(string, 49));
            known = if entity <= left.greatest { left } else { right };
        }
        Ok(None)
    }

    /// The strings of a subtree that the span meets.
    fn versions(&mut self, known: &Subtree, nodes: usize) -> Result<(), Row> {
        if known.least > self.question.until || known.greatest < self.question.time {
            return Ok(());
        }
        if known.least == known.greatest {
            let string = self.open(b'L', 77, &known.digest)?;
            let leaf = (u32_at(string, 1), u64_at(string, 5));
            let (entity, time) = if self.walker.by_keys { (self.question.entity, known.least) } else { leaf };
            self.list.extend(entity.to_be_bytes());
            self.list.extend(time.to_be_bytes());
            return Ok(());
        }
        let string = self.open(b'N', if nodes == 0 { 0 } else { 97 }, &known.digest)?;
        let mut halves = [1, 49].map(|at| Subtree::at(string, at));
        if self.walker.right_first {
            halves.reverse();
        }
        halves.iter().try_for_each(|half| self.versions(half, nodes - 1))
    }
}
