//! The rows of the table: what they measure, and how they are printed.

use calls::Name;

/// A question's directions by number.
pub const DIRECTIONS: [&str; 6] = ["only", "backward", "forward", "only-after", "backward-after", "forward-after"];

/// Spans, by how many versions they list.
pub const SPANS: [&str; 3] = ["between-all", "between-one", "between-none"];

/// What a row measures.
#[derive(Clone, Copy, Debug, PartialEq, Eq)]
pub struct Subject {
    pub call: Name,
    /// Or a span. A dash for a call without a question.
    pub direction: &'static str,
    /// The log's shape; for hash the Rust version that it is compared with.
    pub shape: &'static str,
    /// Records; for hash bytes.
    pub size: usize,
}

/// Sizes between which instructions a record are compared.
pub(crate) const GROWTH: [usize; 2] = [8_192, 65_535];

/// Calls, directions and shapes: for log and commitment the mixed shape and the worst of the others by time, for the calls on a question
/// the worse of two full histories by instructions; spans in the shape where an entity has most versions, and an empty one where it lies
/// between two of them.
const KINDS: [(Name, &str, &str); 26] = [
    (Name::Hash, "-", "tuned"),
    (Name::Hash, "-", "plain"),
    (Name::Log, "-", "mixed"),
    (Name::Log, "-", "flows"),
    (Name::Listing, "-", "flows"),
    (Name::Commitment, "-", "mixed"),
    (Name::Commitment, "-", "flows"),
    (Name::Answer, "only", "busy"),
    (Name::Answer, "backward", "busy"),
    (Name::Answer, "forward", "turns"),
    (Name::Answer, "only-after", "busy"),
    (Name::Answer, "backward-after", "busy"),
    (Name::Answer, "forward-after", "turns"),
    (Name::Answer, SPANS[0], "busy"),
    (Name::Answer, SPANS[1], "busy"),
    (Name::Answer, SPANS[2], "turns"),
    (Name::Check, "only", "busy"),
    (Name::Check, "backward", "busy"),
    (Name::Check, "forward", "turns"),
    (Name::Check, "only-after", "busy"),
    (Name::Check, "backward-after", "busy"),
    (Name::Check, "forward-after", "turns"),
    (Name::Check, SPANS[0], "busy"),
    (Name::Check, SPANS[1], "busy"),
    (Name::Check, SPANS[2], "turns"),
    (Name::Records, "forward", "turns"),
];

/// A direction at or after a time differs from that at or before in the walk alone, so it has the sizes of the growth and no other; and so has a
/// span.
fn sizes(call: Name, direction: &str) -> &'static [usize] {
    match call {
        Name::Hash => &[97, 1 << 20],
        Name::Listing => &[512],
        _ if direction.ends_with("-after") || SPANS.contains(&direction) => &GROWTH,
        _ => &[1_024, GROWTH[0], GROWTH[1]],
    }
}

pub fn subjects() -> Vec<Subject> {
    let subject = |(call, direction, shape): (Name, &'static str, &'static str)| {
        sizes(call, direction).iter().map(move |&size| Subject { call, direction, shape, size })
    };
    KINDS.into_iter().flat_map(subject).collect()
}

/// What a call took.
pub struct Row {
    pub subject: Subject,
    pub seconds: f64,
    /// The proved library's speed, as a multiple of the Rust version's.
    pub to_rust: f64,
    /// The same, with every string hashed by itself in the Rust version; none for a call that builds no trees.
    pub to_one_by_one: Option<f64>,
    /// The call's time, as a multiple of OpenSSL's for the same strings; none without OpenSSL or strings.
    pub to_openssl: Option<f64>,
    /// None without valgrind.
    pub instructions: Option<u64>,
    /// Bytes lent: input, work area and output.
    pub lent: [usize; 3],
    /// Bytes of stack.
    pub stack: usize,
    /// The most bytes that the Rust version has from the heap at one time.
    pub heap: usize,
}

const HEADINGS: [&str; 15] = [
    "call", "asked", "shape", "records", "ns", "to Rust", "one by one", "to OpenSSL", "instructions", "growth", "input", "work", "output",
    "stack", "Rust heap",
];
/// The columns before the first number.
const NAMES: usize = 3;
const WIDTHS: [usize; HEADINGS.len()] = [10, 14, 5, 9, 7, 7, 10, 10, 12, 6, 6, 6, 6, 9, 9];

impl Row {
    fn a_record(&self, number: f64) -> f64 {
        number / self.subject.size as f64
    }

    fn instructions_a_record(&self) -> Option<f64> {
        self.instructions.map(|count| self.a_record(count as f64))
    }

    /// Instructions a record, as a multiple of those of the smaller log among the rows before.
    fn growth(&self, before: &[Row]) -> Option<f64> {
        let smaller = Subject { size: GROWTH[0], ..self.subject };
        let other = before.iter().find(|row| row.subject == smaller && self.subject.size == GROWTH[1])?;
        Some(self.instructions_a_record()? / other.instructions_a_record()?)
    }

    /// The row as it is printed below the rows before it.
    pub fn line(&self, before: &[Row]) -> String {
        let Subject { call, direction, shape, size } = self.subject;
        let bytes = |count: usize| short(self.a_record(count as f64));
        let [input, work, out] = self.lent.map(bytes);
        line([
            call.word(),
            direction.to_string(),
            shape.to_string(),
            grouped(size),
            short(self.a_record(self.seconds * 1e9)),
            ratio(Some(self.to_rust)),
            ratio(self.to_one_by_one),
            ratio(self.to_openssl),
            self.instructions_a_record().map_or(NONE.to_string(), short),
            ratio(self.growth(before)),
            input,
            work,
            out,
            grouped(self.stack),
            bytes(self.heap),
        ])
    }
}

pub fn headings() -> String {
    line(HEADINGS.map(str::to_string))
}

fn line(cells: [String; HEADINGS.len()]) -> String {
    aligned(cells, WIDTHS, NAMES)
}

/// A line of a table: so many cells at its front are names, the others numbers.
pub fn aligned<const CELLS: usize>(cells: [String; CELLS], widths: [usize; CELLS], names: usize) -> String {
    let cell = |(place, cell): (usize, String)| {
        let width = widths[place];
        if place < names { format!("{cell:<width$}") } else { format!("{cell:>width$}") }
    };
    cells.into_iter().enumerate().map(cell).collect::<Vec<_>>().join(" ")
}

pub(crate) const NONE: &str = "-";

pub(crate) fn ratio(value: Option<f64>) -> String {
    value.map_or(NONE.to_string(), |value| format!("{value:.2}"))
}

/// Two digits after the point, fewer above ten, none above a hundred.
pub(crate) fn short(value: f64) -> String {
    match value {
        0.0 => "0".to_string(),
        _ if value < 9.995 => format!("{value:.2}"),
        _ if value < 99.95 => format!("{value:.1}"),
        _ => grouped(value.round() as usize),
    }
}

/// A number with commas.
pub(crate) fn grouped(number: usize) -> String {
    match number {
        0..1_000 => number.to_string(),
        _ => format!("{},{:03}", grouped(number / 1_000), number % 1_000),
    }
}

#[cfg(test)]
mod tests {
    use super::*;

    fn row(call: Name, shape: &'static str, size: usize, instructions: Option<u64>) -> Row {
        let subject = Subject { call, direction: "-", shape, size };
        Row { subject, seconds: 0.0, to_rust: 1.0, to_one_by_one: None, to_openssl: None, instructions, lent: [0; 3], stack: 0, heap: 0 }
    }

    #[test]
    fn growth_is_to_the_smaller_log_of_the_same_kind() {
        let kinds = [(Name::Log, "mixed", 100), (Name::Log, "flows", 200), (Name::Commitment, "mixed", 400)];
        let before: Vec<Row> = kinds.map(|(call, shape, count)| row(call, shape, 8_192, Some(8_192 * count))).into();
        for (call, shape, growth) in [(Name::Log, "mixed", 4.0), (Name::Log, "flows", 2.0), (Name::Commitment, "mixed", 1.0)] {
            assert_eq!(row(call, shape, 65_535, Some(65_535 * 400)).growth(&before), Some(growth));
            assert_eq!(row(call, shape, 1_024, Some(1_024)).growth(&before), None);
            assert_eq!(row(call, shape, 65_535, None).growth(&before), None);
        }
        assert_eq!(row(Name::Commitment, "flows", 65_535, Some(1)).growth(&before), None);
    }

    #[test]
    fn directions_have_the_viewers_words() {
        assert_eq!(DIRECTIONS.map(String::from), viewer::DIRECTIONS.map(|direction| direction.to_string()));
        assert!(SPANS.iter().all(|span| span.starts_with(viewer::Span::WORD) && span.len() <= WIDTHS[1]));
    }

    #[test]
    fn growth_is_in_the_table() {
        for subject in subjects().into_iter().filter(|subject| subject.size == GROWTH[1]) {
            let before = subjects().into_iter().take_while(|other| *other != subject);
            assert!(before.into_iter().any(|other| other == Subject { size: GROWTH[0], ..subject }), "{subject:?}");
        }
    }

    #[test]
    fn a_line_is_by_the_record() {
        let subject = Subject { call: Name::Answer, direction: "forward", shape: "busy", size: 2_000 };
        let row = Row {
            subject,
            seconds: 0.003,
            to_rust: 1.059,
            to_one_by_one: Some(1.254),
            to_openssl: Some(1.5),
            instructions: Some(19_000_000),
            lent: [44_000, 256_000, 0],
            stack: 1_234_567,
            heap: 90_000,
        };
        let cells = |row: &Row| row.line(&[]).split_whitespace().collect::<Vec<_>>().join(" ");
        assert_eq!(cells(&row), "answer forward busy 2,000 1,500 1.06 1.25 1.50 9,500 - 22.0 128 0 1,234,567 45.0");
        assert_eq!(row.line(&[]).len(), headings().len());
        let other = Row { to_one_by_one: None, ..row };
        assert_eq!(cells(&other), "answer forward busy 2,000 1,500 1.06 - 1.50 9,500 - 22.0 128 0 1,234,567 45.0");
    }

    #[test]
    fn numbers_are_short() {
        let small = [(0.0, "0"), (0.123, "0.12"), (9.994, "9.99"), (9.996, "10.0")];
        let numbers = small.into_iter().chain([(99.96, "100"), (1234.6, "1,235"), (1e6, "1,000,000")]);
        for (value, text) in numbers {
            assert_eq!(short(value), text);
        }
    }
}
