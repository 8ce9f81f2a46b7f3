//! A call with its input and the memory lent to it, for the proved library and the Rust version alike, and the strings that it hashes.

use crate::shapes::{self, Asked};
use crate::table::Subject;
use calls::{Fields, Memory, Name};
use reference::collision::{building, checking};
use reference::forge::pieces;
use reference::log::read;
use reference::random::Random;
use reference::sha256::sha256;
use reference::{listing, Question, BETWEEN, LIST_ENTRY, WORK};

/// What a call does not take is empty or zero.
#[derive(Clone, Debug, PartialEq, Eq)]
pub struct Case {
    pub call: Name,
    pub question: Question,
    /// The message or the log; for check and records the commitment, then the answer.
    pub input: Vec<u8>,
    /// Bytes of the work area and of the output, no more than the call needs.
    pub work: usize,
    pub out: usize,
}

/// The memory that a call writes to, and its result: beside the call's own stack, which is measured.
pub struct Lent {
    work: Vec<u8>,
    pub out: Vec<u8>,
    pub result: Fields,
}

/// Bytes of a commitment.
const COMMITMENT: usize = 32;

/// Bytes of the list of a span's answer.
fn list(answer: &[u8]) -> usize {
    LIST_ENTRY * pieces(answer).strings.iter().filter(|string| string[0] == b'L').count()
}

impl Case {
    pub fn new(subject: &Subject) -> Self {
        let Subject { call, direction, shape, size } = *subject;
        let input = if call == Name::Hash { Random::new(size as u64).bytes(size) } else { shapes::log(shape, size) };
        let asked = || Asked::new(&input, direction);
        let blank = |input| Case { call, question: Question::new(0, 0, 0), input, work: 0, out: 0 };
        match call {
            Name::Hash => Case { out: 32, ..blank(input) },
            Name::Log => blank(input),
            Name::Listing => Case { out: listing::text(&input).len(), ..blank(input) },
            Name::Commitment => Case { work: WORK * size, out: COMMITMENT, ..blank(input) },
            Name::Answer => {
                let Asked { question, answer, .. } = asked();
                Case { question, work: WORK * size, out: answer.len(), ..blank(input) }
            }
            Name::Check | Name::Records => {
                let Asked { question, commitment, answer } = asked();
                let work = WORK * pieces(&answer).records.len();
                let out = if question.direction == BETWEEN { list(&answer) } else { 0 };
                Case { question, work, out, ..blank([&commitment[..], &answer].concat()) }
            }
            Name::RecorderStart | Name::RecorderTake | Name::RecorderCommitment => unreachable!("a recorder's calls have a table of their own"),
        }
    }

    pub fn lent(&self) -> Lent {
        Lent { work: vec![0; self.work], out: vec![0; self.out], result: Fields::default() }
    }

    /// The commitment, for check and records, and the message, the log or the answer.
    fn parts(&self) -> (&[u8], &[u8]) {
        let commitment = if matches!(self.call, Name::Check | Name::Records) { COMMITMENT.min(self.input.len()) } else { 0 };
        self.input.split_at(commitment)
    }

    fn memory<'a>(&'a self, lent: &'a mut Lent) -> Memory<'a> {
        let (commitment, input) = self.parts();
        Memory { commitment, input, work: &mut lent.work, out: &mut lent.out }
    }

    /// The strings that the call hashes; of an answer those that its definition needs, which are the commitment's but the last, R.
    pub fn strings(&self) -> Vec<Vec<u8>> {
        let built = || building(sha256, &read(&self.input).expect("a sound log")).1;
        match self.call {
            Name::Log | Name::Listing | Name::RecorderStart | Name::RecorderTake | Name::RecorderCommitment => Vec::new(),
            Name::Hash => vec![self.input.clone()],
            Name::Commitment => built(),
            Name::Answer => built().into_iter().filter(|string| string[0] != b'R').collect(),
            Name::Check | Name::Records => {
                let (commitment, answer) = self.parts();
                checking(sha256, &self.question, commitment.try_into().expect("32 bytes"), answer)
            }
        }
    }

    /// The case as words, all but the input.
    pub fn words(&self) -> Vec<String> {
        let Question { direction, entity, time, until } = self.question;
        let numbers = [u64::from(direction), u64::from(entity), time, until, self.work as u64, self.out as u64];
        [self.call.word()].into_iter().chain(numbers.map(|number| number.to_string())).collect()
    }

    pub fn from_words(words: &[String], input: Vec<u8>) -> Option<Self> {
        let (name, numbers) = words.split_first()?;
        let numbers: Vec<u64> = numbers.iter().map(|word| word.parse()).collect::<Result<_, _>>().ok()?;
        let [direction, entity, time, until, work, out] = numbers[..] else {
            return None;
        };
        let question = Question { until, ..Question::new(direction as u8, entity as u32, time) };
        Some(Case { call: Name::of_word(name)?, question, input, work: work as usize, out: out as usize })
    }
}

/// The proved library's call.
pub fn proved(case: &Case, lent: &mut Lent) {
    lent.result = calls::proved(case.call, &case.question, case.memory(lent));
}

/// The Rust version's call.
pub fn plain_rust(case: &Case, lent: &mut Lent) {
    lent.result = calls::plain_rust(case.call, &case.question, case.memory(lent));
}

/// The Rust version's call with every string hashed by itself; tells whether there is one.
pub fn one_by_one(case: &Case, lent: &mut Lent) -> bool {
    let result = calls::one_by_one(case.call, &case.question, case.memory(lent));
    lent.result = result.unwrap_or_default();
    result.is_some()
}

#[cfg(test)]
mod tests {
    use super::*;
    use calls::NAMES;
    use crate::heap::peak;
    use crate::stack::{used, written};
    use crate::table::{subjects, DIRECTIONS, SPANS};

    /// Every row of the table, with few records.
    fn small() -> Vec<Case> {
        subjects().iter().map(|subject| Case::new(&Subject { size: 40, ..*subject })).collect()
    }

    fn letters(strings: &[Vec<u8>], letter: u8) -> usize {
        strings.iter().filter(|string| string[0] == letter).count()
    }

    #[test]
    fn both_sides_do_the_same_with_no_more_than_they_need() {
        for case in small() {
            let (mut own, mut other, mut alone) = (case.lent(), case.lent(), case.lent());
            proved(&case, &mut own);
            plain_rust(&case, &mut other);
            assert_eq!((own.result, own.result.get("number")), (other.result, 0), "{case:?}");
            assert_eq!(own.out, other.out);
            let builds = matches!(case.call, Name::Commitment | Name::Answer);
            assert_eq!(one_by_one(&case, &mut alone), builds, "{case:?}");
            assert!(!builds || (alone.result, alone.out) == (other.result, other.out), "{case:?}");
            let (work, out) = (case.work.saturating_sub(1), case.out.saturating_sub(1));
            let less = [Case { work, ..case.clone() }, Case { out, ..case.clone() }];
            assert!(less.iter().all(|less| *less == case || refused(less)), "{case:?}");
        }
    }

    fn refused(case: &Case) -> bool {
        let mut lent = case.lent();
        proved(case, &mut lent);
        match lent.result.get("number") {
            0 => case.call == Name::Records && lent.result.get("length") == 0,
            number => number == 12 || number == 13,
        }
    }

    /// Only the Rust version has a heap.
    #[test]
    fn the_sides_are_two() {
        let case = Case::new(&Subject { call: Name::Commitment, direction: "-", shape: "mixed", size: 40 });
        let mut lent = case.lent();
        assert_eq!(peak(|| proved(&case, &mut lent)), 0);
        assert!(peak(|| plain_rust(&case, &mut lent)) > 40);
    }

    /// The calls on a log, on logs that take lists of births of every length; a listing has at most 512 records.
    fn on_a_log() -> Vec<Case> {
        let on_a_log = |call| matches!(call, Name::Log | Name::Listing | Name::Commitment | Name::Answer);
        let rows = subjects().into_iter().filter(|subject| on_a_log(subject.call));
        rows.flat_map(|row| [40, 300, 1_024, 4_096, 20_000].map(|size| Case::new(&Subject { size, ..row }))).collect()
    }

    #[test]
    fn calls_on_a_log_take_at_most_300_000_bytes_of_stack() {
        for case in on_a_log() {
            let mut lent = case.lent();
            let bytes = used(&mut || proved(&case, &mut lent));
            assert!(bytes <= 300_000, "{:?} of {} bytes: {bytes}", case.call, case.input.len());
        }
    }

    /// What the viewer says of a call's stack; a recorder's calls are looked at in `recorder`.
    fn said(call: Name) -> usize {
        match call {
            Name::Hash => viewer::stack::HASH,
            Name::Log => viewer::stack::LOG,
            Name::Listing => viewer::stack::LISTING,
            Name::Commitment => viewer::stack::COMMITMENT,
            Name::Answer => viewer::stack::ANSWER,
            Name::Check => viewer::stack::CHECK,
            Name::Records => viewer::stack::RECORDS,
            Name::RecorderStart | Name::RecorderTake | Name::RecorderCommitment => 0,
        }
    }

    /// The check of a span with as many N strings on a path as there can be.
    fn deep() -> Case {
        Case::new(&Subject { call: Name::Check, direction: SPANS[0], shape: "busy", size: 40_000 })
    }

    /// The check of a history in which many versions wait for none of each other, so that their strings are hashed side by side.
    fn wide(call: Name) -> Case {
        Case::new(&Subject { call, direction: "backward", shape: "flows", size: 4_000 })
    }

    /// No call takes more, and none is said to take twice what it does.
    #[test]
    fn calls_take_the_stack_that_the_viewer_says() {
        let mut most = [0; NAMES.len()];
        for case in small().into_iter().chain(on_a_log()).chain([deep(), wide(Name::Check), wide(Name::Records)]) {
            let mut lent = case.lent();
            let bytes = used(&mut || proved(&case, &mut lent));
            most[case.call as usize] = most[case.call as usize].max(bytes);
        }
        for call in NAMES.into_iter().filter(|call| !call.is_recorders()) {
            let (bytes, said) = (most[call as usize], said(call));
            assert!(bytes <= said && said < 2 * bytes, "{call:?} takes {bytes} bytes and is said to take {said}");
        }
    }

    /// A call clears a list of births that the log's bytes can need: at most 1.25 bytes for each of them. Beside it stand the frames, of which eight
    /// messages hashed side by side take 8,000 bytes, and a word a page; a listing has its text and its table.
    #[test]
    fn a_short_log_writes_little_of_the_stack() {
        for case in on_a_log() {
            let mut lent = case.lent();
            let bytes = written(&mut || proved(&case, &mut lent));
            let most = 26_000 + case.input.len() * 5 / 4 + if case.call == Name::Listing { 131_072 } else { 0 };
            assert!(bytes <= most, "{:?} of {} bytes: {bytes}", case.call, case.input.len());
        }
    }

    #[test]
    fn words_and_input_are_the_case() {
        for case in small() {
            assert_eq!(Case::from_words(&case.words(), case.input.clone()), Some(case));
        }
        let words = |text: &str| text.split(' ').map(str::to_string).collect::<Vec<_>>();
        assert!(Case::from_words(&words("log 0 0 0 0 0 0"), Vec::new()).is_some());
        for wrong in ["logs 0 0 0 0 0 0", "log 0 0 0 0 0", "log 0 0 0 0 0 0 0", "log 0 0 x 0 0 0"] {
            assert_eq!(Case::from_words(&words(wrong), Vec::new()), None);
        }
    }

    /// Of 40 versions of 2 entities: I, O, L of each version, G of each entity, N and P that join them, R.
    #[test]
    fn what_is_hashed() {
        let strings = |call, direction| Case::new(&Subject { call, direction, shape: "turns", size: 40 }).strings();
        let count = |strings: Vec<Vec<u8>>| b"IOLGNPR".map(|letter| letters(&strings, letter));
        assert_eq!(count(strings(Name::Commitment, "-")), [40, 40, 40, 2, 38, 1, 1]);
        for asked in DIRECTIONS.into_iter().chain(SPANS) {
            assert_eq!(count(strings(Name::Answer, asked)), [40, 40, 40, 2, 38, 1, 0]);
        }
        for (span, expected) in SPANS.into_iter().zip([[0, 0, 20, 1, 19, 1, 1], [0, 0, 1, 1, 5, 1, 1], [0, 0, 0, 1, 5, 1, 1]]) {
            assert_eq!(count(strings(Name::Check, span)), expected);
        }
        for call in [Name::Check, Name::Records] {
            for (only, backward, forward) in [("only", "backward", "forward"), ("only-after", "backward-after", "forward-after")] {
                assert_eq!(count(strings(call, only)), [0, 0, 1, 1, 3, 1, 1]);
                assert_eq!(count(strings(call, backward)), [40, 0, 1, 1, 3, 1, 1]);
                assert_eq!(count(strings(call, forward)), [0, 39, 1, 1, 5, 1, 1]);
            }
        }
        assert!(strings(Name::Log, "-").is_empty() && strings(Name::Listing, "-").is_empty());
    }
}
