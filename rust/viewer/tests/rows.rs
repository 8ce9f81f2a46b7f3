//! Every row of the check in every direction in which it can be met, alone and two at once: the order of the rows decides.

mod common;

use common::*;
use reference::forge::{e, pieces, trace_with_count, Pieces};
use reference::host::Host;
use reference::sample::log_k;
use reference::trace::found_place;
use reference::{Question, Way, BETWEEN};
use viewer::plain;

/// A question about Log K and its answer in pieces, with what a fault can change.
#[derive(Clone)]
struct Case {
    question: Question,
    commitment: Vec<u8>,
    strings: Vec<Vec<u8>>,
    /// The trace header's letter, if there is a trace.
    letter: Option<u8>,
    /// The header's count, if it is not the number of records.
    count: Option<u32>,
    records: Vec<Vec<u8>>,
    /// Bytes after the end.
    extra: Vec<u8>,
    /// How many whole pieces (strings, header, records) a cut leaves, and how many bytes of the next.
    cut: Option<(usize, usize)>,
    /// By how many bytes the work area is too short.
    short: usize,
    /// By how many bytes the output is too short for the list.
    narrow: usize,
}

impl Case {
    fn new(question: Question) -> Self {
        let host = Host::new(&log_k());
        let Pieces { strings, header, records } = pieces(&host.answer(&question));
        Case {
            question,
            commitment: host.commitment().to_vec(),
            letter: header.map(|header| header[0]),
            records,
            strings,
            count: None,
            extra: Vec::new(),
            cut: None,
            short: 0,
            narrow: 0,
        }
    }

    fn claimed(&self) -> u32 {
        self.count.unwrap_or(self.records.len() as u32)
    }

    fn pieces(&self) -> Vec<Vec<u8>> {
        let header = self.letter.map(|letter| trace_with_count(letter, self.claimed(), &[]));
        [&self.strings[..], header.as_slice(), &self.records, std::slice::from_ref(&self.extra)].concat()
    }

    fn answer(&self) -> Vec<u8> {
        let mut pieces = self.pieces();
        if let Some((whole, bytes)) = self.cut {
            pieces.truncate(whole + 1);
            pieces[whole].truncate(bytes);
        }
        pieces.concat()
    }

    fn work(&self) -> usize {
        (128 * self.claimed() as usize).saturating_sub(self.short)
    }

    /// The bytes of the list of a question for all versions.
    fn list(&self) -> usize {
        12 * self.strings.iter().filter(|string| self.question.way().is_none() && string[0] | 0x20 == b'l').count()
    }

    /// The check beside the Rust version's, with every field of the result. A list too long for its output is only met here.
    fn number(&self) -> u64 {
        let (answer, work) = (self.answer(), self.work());
        let checked = check(&self.question, &self.commitment, &answer, work);
        let number = compare(&self.question, &self.commitment, &answer, work, self.list().saturating_sub(self.narrow));
        if self.narrow == 0 {
            assert_eq!(number, checked.err().map_or(0, |refusal| refusal.number));
        }
        number
    }
}

/// Every field of the exported check's result, and the output after it: the safe call does not show those that are 0 when it refuses. Gives the
/// row's number.
fn compare(question: &Question, commitment: &[u8], answer: &[u8], work: usize, out: usize) -> u64 {
    let Question { direction, entity, time, until } = *question;
    let (mut list, mut expected) = (vec![7; out], vec![7; out]);
    let given = with_work(work, |work| plain::check(direction, entity, time, until, commitment, answer, work, &mut list));
    let plain::Checked { number, position, verdict, time: found, count } = given;
    let given = reference::Checked { number, position, verdict, time: found, count };
    let due = reference::check(direction, entity, time, until, commitment, answer, &mut vec![0; work], &mut expected);
    assert_eq!((given, list), (due, expected));
    number
}

/// A change of a case that makes it meet a row.
struct Fault {
    number: u64,
    apply: Box<dyn Fn(&mut Case)>,
}

fn fault(number: u64, apply: impl Fn(&mut Case) + 'static) -> Fault {
    Fault { number, apply: Box::new(apply) }
}

/// Row 15: the answer ends in a piece, after so many bytes of it.
fn cut(index: impl Fn(&Case) -> usize + 'static, bytes: usize) -> Fault {
    fault(15, move |case| {
        let place = (index(case), bytes);
        case.cut = Some(case.cut.map_or(place, |earlier| earlier.min(place)));
    })
}

fn at_the_start(direction: u8) -> Vec<Fault> {
    let unknown = |number| fault(11, move |case| case.question.direction = number);
    let crossed = || fault(25, |case| (case.question.time, case.question.until) = (1, 0));
    let commitment = |length| fault(14, move |case| case.commitment.resize(length, 7));
    let mut faults = vec![unknown(7), unknown(255)];
    faults.extend((direction == BETWEEN).then(crossed));
    faults.extend([0, 31, 33].map(commitment));
    faults
}

fn in_string(index: usize) -> Vec<Fault> {
    vec![
        cut(move |_| index, 0),
        fault(16, move |case| case.strings[index][0] ^= 0x20),
        cut(move |_| index, 56),
        fault(17, move |case| case.strings[index][3] ^= 1),
    ]
}

fn in_header() -> Vec<Fault> {
    vec![
        cut(|case| case.strings.len(), 0),
        fault(16, |case| case.letter = Some(b'B' ^ b'F' ^ case.letter.unwrap())),
        cut(|case| case.strings.len(), 4),
        fault(19, |case| case.count = Some(0)),
        fault(19, |case| case.count = Some(65_536)),
        fault(12, |case| case.short = 1),
    ]
}

fn in_record(index: usize) -> Vec<Fault> {
    let positions = fault(20, move |case| {
        let record = &mut case.records[index];
        record.truncate(13);
        record[0] = b'V';
        record.extend([0, 0, 0, 0, 0, 255, 255, 255, 255]);
    });
    let time = fault(21, move |case| {
        let before = case.records[index - 1][5..13].to_vec();
        case.records[index][5..13].copy_from_slice(&before);
    });
    vec![
        cut(move |case| case.strings.len() + 1 + index, 0),
        fault(16, move |case| case.records[index][0] = b'Q'),
        cut(move |case| case.strings.len() + 1 + index, 12),
        positions,
        time,
    ]
}

/// Row 18.
fn after_the_end() -> Fault {
    fault(18, |case| case.extra.push(0))
}

/// Rows 22 to 24. The last record has a kind.
fn of_the_trace(way: Way) -> Vec<Fault> {
    let name = fault(23, move |case| {
        let found = found_place(way, case.records.len());
        case.records[found][4] ^= 1;
    });
    let digest = fault(24, |case| case.records.last_mut().unwrap()[13] ^= 1);
    match way {
        Way::Backward => vec![fault(22, |case| case.records.insert(2, e(3, 25))), name, digest],
        Way::Forward => vec![name, digest],
    }
}

/// The faults of a case in the order of their rows.
fn faults(case: &Case) -> Vec<Fault> {
    let mut faults = at_the_start(case.question.direction);
    faults.extend((0..case.strings.len()).flat_map(in_string));
    let way = case.letter.map(|_| way(&case.question));
    if let Some(way) = way {
        faults.extend(in_header());
        for index in 0..case.records.len() {
            // no record is before the first, and forward the first has no positions
            let without = |row: u64| index == 0 && (row == 21 || row == 20 && way == Way::Forward);
            faults.extend(in_record(index).into_iter().filter(|fault| !without(fault.number)));
        }
    }
    faults.push(after_the_end());
    faults.extend(way.into_iter().flat_map(of_the_trace));
    if case.question.direction == BETWEEN && case.list() > 0 {
        faults.push(fault(13, |case| case.narrow = 1));
        faults.push(fault(13, |case| case.narrow = usize::MAX));
    }
    faults
}

/// Each fault alone, and with each later one, whose row it hides. Gives how many cases there were.
fn alone_and_in_pairs(case: &Case, met: &mut Met) -> usize {
    let faults = faults(case);
    assert_eq!(case.number(), 0);
    for (index, first) in faults.iter().enumerate() {
        let mut alone = case.clone();
        (first.apply)(&mut alone);
        assert_eq!(alone.number(), first.number, "fault {index}");
        met.add(&alone.question, &refused::<()>(first.number, 0));
        for (other, second) in faults.iter().enumerate().skip(index + 1) {
            let mut both = case.clone();
            (second.apply)(&mut both);
            (first.apply)(&mut both);
            assert_eq!(both.number(), first.number, "faults {index} and {other}");
        }
    }
    faults.len() * (faults.len() + 1) / 2
}

#[test]
fn every_row_alone_and_two_at_once() {
    let mut met = Met::default();
    let mut cases = 0;
    let before = [ask(1, 2, 35), ask(2, 2, 20), ask(0, 2, 35), ask(0, 2, 19), ask(1, 2, 19), ask(2, 3, 0)];
    let after = [ask(4, 2, 21), ask(5, 2, 20), ask(3, 2, 21), ask(3, 2, 31), ask(4, 2, 31), ask(5, 3, 0)];
    let spans = [between(1, 10, 40), between(2, 21, 30), between(2, 21, 29), between(2, 31, 99), between(3, 0, 9)];
    for question in before.into_iter().chain(after).chain(spans) {
        cases += alone_and_in_pairs(&Case::new(question), &mut met);
    }
    for (only, backward, forward) in [(0, 1, 2), (3, 4, 5)] {
        met.exactly(only, 1, &[14, 15, 16, 17, 18]);
        met.exactly(backward, 1, &[12, 14, 15, 16, 17, 18, 19, 20, 21, 22, 23, 24]);
        met.exactly(forward, 1, &[12, 14, 15, 16, 17, 18, 19, 20, 21, 23, 24]);
    }
    met.exactly(6, 1, &[13, 14, 15, 16, 17, 18, 25]);
    met.exactly(UNKNOWN, 1, &[11]);
    assert!(cases > 4_000, "{cases} cases");
}
