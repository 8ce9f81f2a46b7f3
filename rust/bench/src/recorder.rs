//! The rows of a running recorder: what the last takes of a log take, and asking, beside one commitment of the same log.
//!
//! Until outgoing digests come in segments (request A9), a record changes the digests of all versions that reach the new one, so that in a log in which
//! most versions do a take costs as much as a rebuild or more. Of such shapes only a few takes are measured.

use calls::{plain_rust, proved, Fields, Memory, Name};
use reference::graph::Graph;
use reference::hash::H;
use reference::host::reaching;
use reference::log::{read, write, Record};
use reference::recorder::UNIT;
use reference::{running, Question, WORK};

use crate::measure::{measure_fresh, Fresh, Measured};
use crate::table::{aligned, grouped, ratio, short, GROWTH, NONE};
use crate::{instructions, shapes, stack};

/// Turns of a row: the works compared take turns.
const TURNS: usize = 5;

/// Shapes in which a record changes few digests, or many: how many takes are measured, and the sizes of the logs.
const TAKEN: [(&str, usize, &[usize]); 7] = [
    ("births", 1_024, &[1_024, GROWTH[0], GROWTH[1]]),
    ("pairs", 1_024, &[1_024, GROWTH[0], GROWTH[1]]),
    ("mixed", 8, &[1_024, GROWTH[0]]),
    ("flows", 8, &[1_024, GROWTH[0]]),
    ("yard", 8, &[1_024, GROWTH[0]]),
    ("busy", 8, &[1_024]),
    ("turns", 8, &[1_024]),
];

/// Shapes in which the recorder is asked, which is one hash in all of them.
const ASKED: [(&str, &[usize]); 2] = [("births", &[1_024, GROWTH[0], GROWTH[1]]), ("yard", &[GROWTH[0]])];

/// What a row measures.
#[derive(Clone, Copy, Debug, PartialEq, Eq)]
pub struct Subject {
    pub call: Name,
    pub shape: &'static str,
    /// Records of the log after the calls.
    pub size: usize,
    /// Calls that are measured.
    pub calls: usize,
}

pub fn subjects() -> Vec<Subject> {
    let taken = TAKEN.into_iter().flat_map(|(shape, calls, sizes)| {
        // a start with nothing taken is fresh, so that all records may be measured
        sizes.iter().map(move |&size| Subject { call: Name::RecorderTake, shape, size, calls: calls.min(size) })
    });
    let asked = ASKED.into_iter().flat_map(|(shape, sizes)| {
        sizes.iter().map(move |&size| Subject { call: Name::RecorderCommitment, shape, size, calls: 1 })
    });
    taken.chain(asked).collect()
}

/// A recorder's memory before the calls, and what is offered.
pub struct Recorded {
    call: Name,
    memory: Vec<u8>,
    offers: Vec<Vec<u8>>,
    pub out: [u8; 32],
}

impl Recorded {
    /// The last calls of a log: memory that has taken all records before them.
    pub fn new(call: Name, log: &[u8], calls: usize) -> Self {
        let records = read(log).expect("a sound log");
        let taken = if call == Name::RecorderTake { records.len() - calls } else { records.len() };
        let memory = running::built(&mut H, &records[..taken], UNIT * (records.len() + 1));
        Recorded { call, memory, offers: records[taken..].iter().map(|record| write(&[*record])).collect(), out: [0; 32] }
    }

    pub fn from_words(words: &[String], log: &[u8]) -> Option<Self> {
        let [name, calls] = words else { return None };
        let call = Name::of_word(name).filter(|name| name.is_recorders())?;
        Some(Recorded::new(call, log, calls.parse().ok()?))
    }

    /// The calls of the proved library; the memory is then as they leave it.
    pub fn run_proved(&mut self) {
        run(self.call, &mut self.memory, &self.offers, &mut self.out, proved);
    }
}

fn run(call: Name, memory: &mut [u8], offers: &[Vec<u8>], out: &mut [u8], side: impl Fn(Name, &Question, Memory) -> Fields) {
    let question = Question::new(0, 0, 0);
    let accept = |fields: Fields| assert_eq!(fields.get("number"), 0, "{call:?}");
    if call == Name::RecorderCommitment {
        return accept(side(call, &question, Memory { commitment: &[], input: memory, work: &mut [], out }));
    }
    for offer in offers {
        accept(side(call, &question, Memory { commitment: &[], input: offer, work: &mut *memory, out: &mut [] }));
    }
}

/// One side's calls, on memory that is copied anew each time.
struct Side<'a> {
    recorded: &'a Recorded,
    memory: Vec<u8>,
    out: [u8; 32],
    side: fn(Name, &Question, Memory) -> Fields,
}

impl Fresh for Side<'_> {
    fn make_ready(&mut self) {
        self.memory.clone_from(&self.recorded.memory);
    }

    fn run(&mut self) {
        run(self.recorded.call, &mut self.memory, &self.recorded.offers, &mut self.out, self.side);
    }
}

/// One commitment of the whole log.
struct Rebuild<'a> {
    log: &'a [u8],
    work: Vec<u8>,
    out: [u8; 32],
}

impl Fresh for Rebuild<'_> {
    fn make_ready(&mut self) {}

    fn run(&mut self) {
        let lent = Memory { commitment: &[], input: self.log, work: &mut self.work, out: &mut self.out };
        let fields = proved(Name::Commitment, &Question::new(0, 0, 0), lent);
        assert_eq!(fields.get("number"), 0);
    }
}

/// What a call took, each number by call.
pub struct Row {
    pub subject: Subject,
    pub seconds: f64,
    /// The proved library's speed, as a multiple of the Rust version's.
    pub to_rust: f64,
    /// How many of the calls take as long as one commitment of the log.
    pub in_rebuild: f64,
    /// None without valgrind.
    pub instructions: Option<f64>,
    /// Versions whose outgoing digest changes.
    pub changed: f64,
    pub stack: usize,
}

const HEADINGS: [&str; 11] =
    ["call", "shape", "records", "calls", "ns", "to Rust", "in a rebuild", "instructions", "growth", "changed", "stack"];
/// The columns before the first number.
const NAMES: usize = 2;
const WIDTHS: [usize; HEADINGS.len()] = [19, 6, 7, 5, 11, 7, 12, 13, 6, 7, 7];

impl Row {
    /// Instructions a call, as a multiple of those of the smaller log among the rows before.
    fn growth(&self, before: &[Row]) -> Option<f64> {
        let smaller = Subject { size: GROWTH[0], ..self.subject };
        let other = before.iter().find(|row| row.subject == smaller && self.subject.size == GROWTH[1])?;
        Some(self.instructions? / other.instructions?)
    }

    pub fn line(&self, before: &[Row]) -> String {
        let Subject { call, shape, size, calls } = self.subject;
        line([
            call.word().replace('_', " "),
            shape.to_string(),
            grouped(size),
            grouped(calls),
            short(self.seconds * 1e9),
            ratio(Some(self.to_rust)),
            short(self.in_rebuild),
            self.instructions.map_or(NONE.to_string(), short),
            ratio(self.growth(before)),
            short(self.changed),
            grouped(self.stack),
        ])
    }
}

pub fn headings() -> String {
    line(HEADINGS.map(str::to_string))
}

fn line(cells: [String; HEADINGS.len()]) -> String {
    aligned(cells, WIDTHS, NAMES)
}

/// How many versions reach one of the last so many, beside itself, in the mean; a birth is reached by none.
fn changed(records: &[Record], calls: usize) -> f64 {
    let versions = Graph::new(records).versions;
    let others = |end: usize| reaching(&versions, end).into_iter().filter(|reaches| *reaches).count() - 1;
    let last = records.len() - calls..records.len();
    last.filter(|end| versions[*end].temporal.is_some()).map(others).sum::<usize>() as f64 / calls as f64
}

pub fn measured(subject: Subject, with_instructions: bool) -> Row {
    let Subject { call, shape, size, calls } = subject;
    let log = shapes::log(shape, size);
    let mut recorded = Recorded::new(call, &log, calls);
    let times = times(&recorded, &log, size);
    let words = [call.word(), calls.to_string()];
    let instructions = if with_instructions { instructions::count_of(call, &words, &log) } else { None };
    let changed = if call == Name::RecorderTake { changed(&read(&log).expect("a sound log"), calls) } else { 0.0 };
    Row {
        subject,
        seconds: times[0].seconds / calls as f64,
        to_rust: times[1].ratio,
        in_rebuild: times[2].ratio * calls as f64,
        instructions: instructions.map(|count| count as f64 / calls as f64),
        changed,
        stack: stack::used(&mut || recorded.run_proved()),
    }
}

/// The proved library's time for the calls, the Rust version's, and one commitment's.
fn times(recorded: &Recorded, log: &[u8], size: usize) -> Vec<Measured> {
    let side = |side| Side { recorded, memory: Vec::new(), out: [0; 32], side };
    let rebuild = Rebuild { log, work: vec![0; WORK * size], out: [0; 32] };
    measure_fresh(&mut [Box::new(side(proved)), Box::new(side(plain_rust)), Box::new(rebuild)], TURNS)
}

/// Prints the table.
pub fn print() {
    println!("a running recorder: the last calls of a log, on memory that has taken all records before; numbers are by call");
    println!("in a rebuild: so many calls take as long as one `commitment` of the log; changed: versions whose outgoing digest changes");
    println!("to Rust is the median of {TURNS} interleaved turns");
    println!("{}", headings());
    let mut rows = Vec::new();
    for subject in subjects() {
        let row = measured(subject, true);
        println!("{}", row.line(&rows));
        rows.push(row);
    }
}

#[cfg(test)]
mod tests {
    use super::*;
    use reference::host::Host;
    use reference::recorder::Recorder;

    fn small() -> Vec<Subject> {
        subjects().into_iter().map(|subject| Subject { size: 40, calls: subject.calls.min(30), ..subject }).collect()
    }

    /// Both sides take the last records, and have then the log's commitment.
    #[test]
    fn both_sides_do_the_same() {
        for subject in small() {
            let log = shapes::log(subject.shape, subject.size);
            let recorded = Recorded::new(subject.call, &log, subject.calls);
            for side in [proved, plain_rust] {
                let mut work = Side { recorded: &recorded, memory: Vec::new(), out: [0; 32], side };
                work.make_ready();
                work.run();
                let mut out = [0; 32];
                run(Name::RecorderCommitment, &mut work.memory, &[], &mut out, proved);
                assert_eq!(out, Host::new(&read(&log).expect("a sound log")).commitment(), "{subject:?}");
                assert!(subject.call == Name::RecorderTake || work.out == out);
            }
        }
    }

    #[test]
    fn shapes_are_sound_and_of_their_size() {
        for Subject { shape, .. } in subjects() {
            for size in [40, 300] {
                assert_eq!(read(&shapes::log(shape, size)).map(|records| records.len()), Ok(size), "{shape}");
            }
        }
    }

    #[test]
    fn versions_that_change_are_counted() {
        let of = |shape: &str, calls| changed(&read(&shapes::log(shape, 60)).expect("a sound log"), calls);
        assert_eq!((of("births", 10), of("pairs", 10)), (0.0, 2.0));
        // all versions before each of the last two
        assert_eq!(of("turns", 2), 58.5);
    }

    /// No call takes more stack than the viewer says, and none is said to take twice what it does.
    #[test]
    fn calls_take_the_stack_that_the_viewer_says() {
        let mut most = [0; 3];
        for subject in small().into_iter().chain(subjects().into_iter().filter(|subject| subject.size == 1_024)) {
            let log = shapes::log(subject.shape, subject.size);
            let mut recorded = Recorded::new(subject.call, &log, subject.calls);
            let bytes = stack::used(&mut || recorded.run_proved());
            let place = usize::from(subject.call == Name::RecorderTake);
            most[place] = most[place].max(bytes);
        }
        let mut memory = vec![0; 2 * UNIT];
        let mut start = || {
            let lent = Memory { commitment: &[], input: &[], work: &mut memory, out: &mut [] };
            proved(Name::RecorderStart, &Question::new(0, 0, 0), lent);
        };
        most[2] = stack::used(&mut start);
        let said = [viewer::stack::RECORDER_COMMITMENT, viewer::stack::RECORDER_TAKE, viewer::stack::RECORDER_START];
        for (bytes, said) in most.into_iter().zip(said) {
            assert!(bytes <= said && said < 2 * bytes.max(64), "takes {bytes} bytes and is said to take {said}");
        }
    }

    #[test]
    fn words_and_log_are_the_calls() {
        let log = shapes::log("yard", 40);
        let words = |text: &str| text.split(' ').map(str::to_string).collect::<Vec<_>>();
        let recorded = Recorded::from_words(&words("recorder_take 7"), &log).expect("a case");
        assert_eq!((recorded.offers.len(), recorded.memory.len()), (7, UNIT * 41));
        assert_eq!(Recorder::start(recorded.memory.len()).map(|fresh| fresh.taken().len()), Ok(0));
        for wrong in ["recorder_take", "recorder_take x", "log 0", "commitment 0 0 0 0 0 0"] {
            assert!(Recorded::from_words(&words(wrong), &log).is_none(), "{wrong}");
        }
    }

    #[test]
    fn a_line_is_by_the_call() {
        let subject = Subject { call: Name::RecorderTake, shape: "births", size: GROWTH[1], calls: 1_024 };
        let row = |size, instructions| Row {
            subject: Subject { size, ..subject },
            seconds: 5e-6,
            to_rust: 1.0,
            in_rebuild: 2_500.0,
            instructions,
            changed: 0.0,
            stack: 70_000,
        };
        let before = [row(GROWTH[0], Some(100.0))];
        let text = row(GROWTH[1], Some(120.0)).line(&before);
        let cells = text.split_whitespace().collect::<Vec<_>>().join(" ");
        assert_eq!(cells, "recorder take births 65,535 1,024 5,000 1.00 2,500 120 1.20 0 70,000");
        assert_eq!(text.len(), headings().len());
    }
}
