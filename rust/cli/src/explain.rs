//! Any bytes read as an answer: field by field, up to the first thing that cannot be read.
//!
//! Nothing is checked here, and no question is known. So of the letters that may follow a string each is read, and so is every end that
//! an answer to some question may have.

use reference::hex::to_hex;

use crate::command::Words;
use crate::failure::{Done, Failure};
use crate::files;

/// A field of an answer, or the letter that a string, the trace or a record begins with.
#[derive(Debug, PartialEq, Eq)]
pub struct Field {
    pub place: usize,
    pub bytes: Vec<u8>,
    /// The letter of what it stands in.
    letter: char,
    meaning: String,
}

impl Field {
    pub fn end(&self) -> usize {
        self.place + self.bytes.len()
    }

    /// A line of a table, as the handout has them.
    fn line(&self) -> String {
        format!("{:>4}  {:<16}  {}\n", self.place, to_hex(&self.bytes), self.meaning)
    }

    /// What it is called outside a table: 'R', or 'R, number of entities'.
    pub fn name(&self) -> String {
        match self.meaning.starts_with(self.letter) {
            true => self.meaning.clone(),
            false => format!("{}, {}", self.letter, self.meaning),
        }
    }
}

/// An answer's fields as far as it can be read, and what stands in the way of reading on.
#[derive(Debug, PartialEq, Eq)]
pub struct Explained {
    pub fields: Vec<Field>,
    pub stop: Option<String>,
}

pub fn run(words: &Words) -> Done {
    let Explained { fields, stop } = explained(&files::read(words.plain(0))?);
    files::write("-", fields.iter().map(Field::line).collect::<String>().as_bytes())?;
    stop.map_or(Ok(()), |stop| Err(Failure::Answer(stop)))
}

pub fn explained(answer: &[u8]) -> Explained {
    let mut reader = Reader { bytes: answer, fields: Vec::new(), letter: ' ', entity: 0, versions: Vec::new() };
    let stop = reader.answer().err();
    Explained { fields: reader.fields, stop }
}

struct Reader<'a> {
    bytes: &'a [u8],
    fields: Vec<Field>,
    /// The letter read last.
    letter: char,
    /// The entity that G names.
    entity: u64,
    /// The versions of the trace's records so far.
    versions: Vec<(u64, u64)>,
}

impl Reader<'_> {
    fn place(&self) -> usize {
        self.fields.last().map_or(0, Field::end)
    }

    fn rest(&self) -> &[u8] {
        &self.bytes[self.place()..]
    }

    /// Reads a field, and gives its number, which is of use if it has no more than 8 bytes.
    fn field(&mut self, width: usize, meaning: &str) -> Result<u64, String> {
        let (place, rest) = (self.place(), self.rest());
        let bytes = rest.get(..width).ok_or_else(|| {
            format!("byte {place}: the answer ends inside {}: {meaning}, of which {} of {width} bytes are there", self.letter, rest.len())
        })?;
        let field = Field { place, bytes: bytes.to_vec(), letter: self.letter, meaning: meaning.to_string() };
        let value = number(bytes);
        self.fields.push(field);
        Ok(value)
    }

    /// Reads a letter out of those due; `meaning` says what follows the letter in the table.
    fn letter(&mut self, due: &str, meaning: impl Fn(char) -> &'static str) -> Result<char, String> {
        let place = self.place();
        let wanted = due.split("").filter(|letter| !letter.is_empty()).collect::<Vec<_>>().join(" or ");
        let byte = *self.rest().first().ok_or_else(|| format!("byte {place}: the answer ends, and {wanted} is due"))?;
        let letter = char::from(byte);
        if !due.contains(letter) {
            return Err(format!("byte {place}: {byte:02x} is not a letter due, which is {wanted}"));
        }
        self.letter = letter;
        self.field(1, &format!("{letter}{}", meaning(letter)))?;
        Ok(letter)
    }

    /// The proof's strings, and the trace if there is one.
    fn answer(&mut self) -> Result<(), String> {
        let mut due = Some("R");
        while let Some(letters) = due {
            due = match self.letter(letters, |_| "")? {
                'R' => self.root()?,
                'P' => self.two_subtrees(Tree::Entities)?,
                'G' => self.entity()?,
                'N' => self.two_subtrees(Tree::Versions)?,
                'L' => self.leaf()?,
                direction => self.trace(direction == 'B')?,
            };
        }
        match self.rest().len() {
            0 => Ok(()),
            extra => Err(format!("byte {}: {extra} bytes after the end", self.place())),
        }
    }

    /// The letters due after a string behind which an answer may end: none if it does.
    fn unless_ended(&self, due: &'static str) -> Option<&'static str> {
        (!self.rest().is_empty()).then_some(due)
    }

    fn root(&mut self) -> Result<Option<&'static str>, String> {
        self.field(4, "number of entities")?;
        self.field(4, "number of records")?;
        self.field(8, "time of the last record")?;
        self.subtree("tree of entities")?;
        Ok(self.unless_ended("PG"))
    }

    fn entity(&mut self) -> Result<Option<&'static str>, String> {
        self.entity = self.field(8, "entity, 8 bytes")?;
        self.subtree(&format!("tree of {}", self.entity))?;
        Ok(self.unless_ended("NL"))
    }

    /// P or N. What was asked between two times may end behind an N.
    fn two_subtrees(&mut self, tree: Tree) -> Result<Option<&'static str>, String> {
        for side in ["left", "right"] {
            let keys = self.rest().get(..16).map(|keys| (number(&keys[..8]), number(&keys[8..])));
            self.subtree(&format!("{side}{}", keys.map_or(String::new(), |keys| tree.span(self.entity, keys))))?;
        }
        Ok(self.unless_ended(match tree {
            Tree::Entities => "PG",
            Tree::Versions => "NL",
        }))
    }

    fn subtree(&mut self, name: &str) -> Result<(), String> {
        self.field(8, &format!("{name}: least key"))?;
        self.field(8, &format!("{name}: greatest key"))?;
        self.field(32, &format!("{name}: digest"))?;
        Ok(())
    }

    fn leaf(&mut self) -> Result<Option<&'static str>, String> {
        self.field(4, "entity")?;
        self.field(8, "time")?;
        self.field(32, "incoming digest")?;
        self.field(32, "outgoing digest")?;
        // a trace, or the next string of a list
        Ok(self.unless_ended("BFNL"))
    }

    fn trace(&mut self, backward: bool) -> Result<Option<&'static str>, String> {
        let count = self.field(4, "count")?;
        for position in 0..count {
            match (backward, position) {
                (true, _) => self.record("EV", position + 1 == count)?,
                (false, 0) => self.record("S", true)?,
                (false, _) => self.record("TDV", false)?,
            }
        }
        Ok(None)
    }

    fn record(&mut self, due: &str, found: bool) -> Result<(), String> {
        let letter = self.letter(due, |letter| match letter {
            'T' => ", only the temporal edge starts inside",
            'D' => ", only the dependency edge starts inside",
            _ if found => ", the found version",
            _ => "",
        })?;
        let version = (self.field(4, "entity")?, self.field(8, "time")?);
        if matches!(letter, 'D' | 'V') {
            self.field(1, "kind")?;
        }
        if matches!(letter, 'T' | 'V') {
            self.position("previous version")?;
        }
        if matches!(letter, 'D' | 'V') {
            self.position("source")?;
        }
        self.versions.push(version);
        Ok(())
    }

    fn position(&mut self, of: &str) -> Result<(), String> {
        let named = self.rest().get(..4).and_then(|bytes| self.versions.get(number(bytes) as usize));
        let name = named.map_or("which no earlier record has".to_string(), |(entity, time)| format!("{entity} at {time}"));
        self.field(4, &format!("position of the {of}, {name}")).map(|_| ())
    }
}

/// Which of the two kinds of tree an inner string stands in.
enum Tree {
    Entities,
    Versions,
}

impl Tree {
    /// What a subtree with these keys holds; in an entity's tree, of that entity.
    fn span(&self, entity: u64, (least, greatest): (u64, u64)) -> String {
        match (self, least == greatest) {
            (Tree::Entities, true) => format!(", entity {least}"),
            (Tree::Entities, false) => format!(", entities {least} to {greatest}"),
            (Tree::Versions, true) => format!(", the leaf {entity} at {least}"),
            (Tree::Versions, false) => format!(", {entity} from {least} to {greatest}"),
        }
    }
}

/// A big-endian number; of more than 8 bytes the last 8.
fn number(bytes: &[u8]) -> u64 {
    bytes.iter().fold(0, |number, byte| number << 8 | u64::from(*byte))
}

#[cfg(test)]
mod tests {
    use super::*;
    use reference::random::Random;
    use crate::asked::Asked;
    use viewer::{Question, Span, DIRECTIONS};

    fn log() -> Vec<u8> {
        reference::log::write(&reference::random::sound_records(&mut Random::new(5), 60))
    }

    fn answers() -> Vec<Vec<u8>> {
        let (log, mut random, mut answers) = (log(), Random::new(6), Vec::new());
        let records = reference::log::read(&log).unwrap();
        for direction in DIRECTIONS.into_iter().cycle().take(60) {
            let entity = random.pick(&reference::log::births(&records).collect::<Vec<_>>()).saturating_add(random.below(2) as u32);
            let time = random.pick(&records).time().saturating_sub(random.below(2));
            let until = time.saturating_add(random.below(40));
            for asked in [Asked::One(Question { direction, entity, time }), Asked::All(Span { entity, from: time, until })] {
                answers.push(crate::calls::answer(&asked, &log).unwrap());
            }
        }
        answers
    }

    /// The fields stand one after the other, and are the answer's bytes up to the last one's end.
    fn assert_in_order(answer: &[u8], explained: &Explained) {
        let bytes: Vec<u8> = explained.fields.iter().flat_map(|field| field.bytes.clone()).collect();
        assert_eq!(bytes, answer[..bytes.len()]);
        let mut place = 0;
        for field in &explained.fields {
            assert_eq!(field.place, place);
            place = field.end();
        }
    }

    #[test]
    fn true_answers_are_read_to_their_end() {
        for answer in answers() {
            let explained = explained(&answer);
            assert_eq!(explained.stop, None);
            assert_in_order(&answer, &explained);
            assert_eq!(explained.fields.last().unwrap().end(), answer.len());
        }
    }

    #[test]
    fn any_bytes_are_read_up_to_a_stop() {
        let (mut random, mut stopped) = (Random::new(7), 0);
        for mut answer in answers() {
            let place = random.index(answer.len());
            answer[place] = random.byte();
            answer.truncate(place + 1 + random.index(answer.len()));
            let explained = explained(&answer);
            assert_in_order(&answer, &explained);
            let end = explained.fields.last().map_or(0, Field::end);
            if let Some(stop) = explained.stop {
                assert!(stop.starts_with(&format!("byte {end}: ")), "{stop}");
                stopped += 1;
            } else {
                assert_eq!(end, answer.len());
            }
        }
        assert!(stopped > 10, "{stopped}");
    }

    #[test]
    fn a_letter_is_named_once_outside_a_table() {
        let names: Vec<String> = explained(&answers()[0]).fields.iter().take(3).map(Field::name).collect();
        assert_eq!(names, ["R", "R, number of entities", "R, number of records"]);
    }
}
