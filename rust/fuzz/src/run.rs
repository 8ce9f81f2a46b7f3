//! A run: cases one after another, a word now and then, and a verdict at the end.

use std::fmt;
use std::panic::{catch_unwind, AssertUnwindSafe};
use std::time::{Duration, Instant};

use calls::{Fields, Memory, Name};
use reference::Question;

use crate::case::Case;
use crate::options::{End, Options};
use crate::tally::Tally;

/// How often a run says how far it is.
const PAUSE: Duration = Duration::from_secs(10);
/// So many differences are shown; the others are counted.
const MOST_SHOWN: u64 = 10;

/// What a run found: a case that differs is one difference.
#[derive(Clone, Copy, Debug, PartialEq, Eq)]
pub struct Verdict {
    pub seed: u64,
    pub cases: u64,
    pub differences: u64,
}

impl Verdict {
    /// The program's exit status: 0 only if no case differs.
    pub fn status(&self) -> u8 {
        u8::from(self.differences > 0)
    }
}

impl fmt::Display for Verdict {
    fn fmt(&self, text: &mut fmt::Formatter) -> fmt::Result {
        match self.differences {
            0 => write!(text, "no difference")?,
            1 => write!(text, "1 difference")?,
            differences => write!(text, "{differences} differences")?,
        }
        write!(text, " in {} case{}, seed {}", self.cases, if self.cases == 1 { "" } else { "s" }, self.seed)
    }
}

/// Runs the cases that the options name. The last that it says is the verdict.
pub fn run(options: Options, library: impl Fn(Name, &Question, Memory) -> Fields + Copy, say: &mut dyn FnMut(&str)) -> Verdict {
    let Options { seed, end } = options;
    let started = Instant::now();
    let (mut tally, mut next_word) = (Tally::default(), started + PAUSE);
    let mut verdict = Verdict { seed, cases: 0, differences: 0 };
    say(&format!("seed {seed}"));
    for index in first(end).. {
        if over(end, index, started) {
            break;
        }
        let case = Case { seed, index };
        if matches!(end, End::Only(_)) {
            case.calls().iter().for_each(|call| say(&format!("{call:?}")));
        }
        verdict.cases += 1;
        if let Err(difference) = attempt(case, library, &mut tally) {
            verdict.differences += 1;
            if verdict.differences <= MOST_SHOWN {
                say(&difference);
            }
        }
        if Instant::now() >= next_word {
            say(&progress(&verdict, &tally, started));
            next_word += PAUSE;
        }
    }
    say(&format!("{}\n{tally}", progress(&verdict, &tally, started)));
    say(&verdict.to_string());
    verdict
}

fn first(end: End) -> u64 {
    match end {
        End::Only(index) => index,
        End::After(_) | End::Cases(_) => 0,
    }
}

fn over(end: End, index: u64, started: Instant) -> bool {
    match end {
        End::After(time) => started.elapsed() >= time,
        End::Cases(cases) => index >= cases,
        End::Only(only) => index > only,
    }
}

/// Runs a case; else says how it differs. A panic of the Rust version is a difference like any other.
fn attempt(case: Case, library: impl Fn(Name, &Question, Memory) -> Fields + Copy, tally: &mut Tally) -> Result<(), String> {
    let ran = catch_unwind(AssertUnwindSafe(|| case.run(library, tally)));
    ran.unwrap_or_else(|_| Err(format!("case {}: panic: fuzz/run --seed {} --case {}", case.index, case.seed, case.index)))
}

fn progress(verdict: &Verdict, tally: &Tally, started: Instant) -> String {
    let seconds = started.elapsed().as_secs_f64();
    let rate = verdict.cases as f64 / seconds.max(0.001);
    let rows: Vec<String> = tally.rows().iter().map(usize::to_string).collect();
    format!("{seconds:.0} s: {} cases, {rate:.0} a second; rows met: {}", verdict.cases, rows.join(" "))
}

#[cfg(test)]
mod tests {
    use super::*;
    use calls::proved;

    /// The first 300 cases of seed 1 with a library: the verdict, and all that was said.
    fn ran(library: impl Fn(Name, &Question, Memory) -> Fields + Copy) -> (Verdict, Vec<String>) {
        let mut said = Vec::new();
        let verdict = run(Options { seed: 1, end: End::Cases(300) }, library, &mut |text| said.push(text.to_string()));
        (verdict, said)
    }

    /// The cases of these with a call of that name.
    fn cases_with(name: Name) -> u64 {
        (0..300).filter(|index| Case { seed: 1, index: *index }.calls().iter().any(|call| call.name == name)).count() as u64
    }

    /// Gives another position than the proved library for every hash.
    fn wrong_hash(name: Name, question: &Question, memory: Memory) -> Fields {
        let mut fields = proved(name, question, memory);
        if name == Name::Hash {
            fields.set("position", 7);
        }
        fields
    }

    fn panics_for_hash(name: Name, question: &Question, memory: Memory) -> Fields {
        assert!(name != Name::Hash, "no hash");
        proved(name, question, memory)
    }

    #[test]
    fn no_difference_is_said_last() {
        let (verdict, said) = ran(proved);
        assert_eq!(said.last().map(String::as_str), Some("no difference in 300 cases, seed 1"));
        assert_eq!((verdict.status(), verdict.differences, verdict.cases), (0, 0, 300));
    }

    #[test]
    fn differences_are_counted_and_the_first_are_shown() {
        let expected = cases_with(Name::Hash);
        assert!(expected > MOST_SHOWN && expected < 300);
        let (verdict, said) = ran(wrong_hash);
        assert_eq!(said.last(), Some(&format!("{expected} differences in 300 cases, seed 1")));
        assert_eq!((verdict.status(), verdict.differences), (1, expected));
        assert_eq!(said.iter().filter(|text| text.contains("fuzz/run --seed 1 --case ")).count() as u64, MOST_SHOWN);
    }

    #[test]
    fn a_panic_is_a_difference() {
        let (verdict, said) = ran(panics_for_hash);
        assert_eq!((verdict.status(), verdict.differences), (1, cases_with(Name::Hash)));
        assert!(said.iter().any(|text| text.contains(": panic: fuzz/run --seed 1 --case ")));
    }

    #[test]
    fn one_case_alone_shows_its_calls() {
        let mut said = Vec::new();
        let verdict = run(Options { seed: 1, end: End::Only(5) }, proved, &mut |text| said.push(text.to_string()));
        assert_eq!(verdict.to_string(), "no difference in 1 case, seed 1");
        let calls = Case { seed: 1, index: 5 }.calls();
        assert!(calls.iter().all(|call| said.contains(&format!("{call:?}"))));
        assert_eq!(Verdict { differences: 1, ..verdict }.to_string(), "1 difference in 1 case, seed 1");
    }
}
