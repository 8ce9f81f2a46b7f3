//! The command `record`: a running recorder over a store.

use std::io::{self, BufRead};
use std::path::Path;
use std::time::{Duration, Instant};

use reference::hex::to_hex;
use viewer::Refusal;

use crate::command::Words;
use crate::failure::{Done, Failure};
use crate::files;
use crate::json::{object, text};
use crate::report;
use crate::store::disk::Folder;
use crate::store::{Found, Store, Taken, Unopened};
use crate::textlog;

/// A line's answer.
#[derive(Clone, Debug, PartialEq, Eq)]
enum Answer {
    Taken(Taken),
    Refused(Refusal),
    /// The line is no record's.
    Unread(String),
}

impl Answer {
    fn line(&self) -> String {
        match self {
            Answer::Taken(Taken { records, commitment }) => format!("taken {records} {}\n", to_hex(commitment)),
            Answer::Refused(refusal) => format!("{refusal}\n"),
            Answer::Unread(reason) => format!("unread: {reason}\n"),
        }
    }

    fn json(&self) -> String {
        let fields = match self {
            Answer::Taken(Taken { records, commitment }) => {
                object([("accepted", "true".to_string()), ("records", records.to_string()), ("commitment", text(&to_hex(commitment)))])
            }
            Answer::Refused(refusal) => report::refused(refusal),
            Answer::Unread(reason) => object([("accepted", "false".to_string()), ("unread", text(reason))]),
        };
        fields + "\n"
    }
}

/// Lines that wait share one sync, and are answered after it; but none of them waits longer than this for those behind it to be taken.
const LONGEST_WAIT: Duration = Duration::from_millis(20);

/// How often it is said how many records were offered again.
const OFFERED: usize = 4_096;

pub fn run(words: &Words) -> Done {
    let name = words.plain(0);
    let mut store = open(name)?;
    if store.copy_is_due() {
        copy(&mut store, name);
    }
    let (mut input, mut waiting, mut all_taken) = (io::stdin().lock(), Vec::new(), true);
    loop {
        let given = input.fill_buf().map_err(|reason| Failure::Use(format!("standard input: {reason}")))?;
        if given.is_empty() {
            break;
        }
        let length = given.len();
        waiting.extend_from_slice(given);
        input.consume(length);
        let whole = waiting.iter().rposition(|byte| *byte == b'\n').map_or(0, |end| end + 1);
        let mut lines = waiting[..whole].split_inclusive(|byte| *byte == b'\n').peekable();
        while lines.peek().is_some() {
            let (started, mut answers) = (Instant::now(), Vec::new());
            while let Some(line) = lines.next_if(|_| started.elapsed() < LONGEST_WAIT) {
                answers.extend(answer(&mut store, line));
            }
            store = store.keep().map_err(|reason| Failure::Use(format!("{name}/log: {reason}: what was not answered is not recorded")))?;
            let is_json = words.option("--json").is_some();
            let told: String = answers.iter().map(|answer| if is_json { answer.json() } else { answer.line() }).collect();
            files::write("-", told.as_bytes())?;
            all_taken &= answers.iter().all(|answer| matches!(answer, Answer::Taken(_)));
            if store.copy_is_due() {
                copy(&mut store, name);
            }
        }
        waiting.drain(..whole);
    }
    if store.copy_is_old() {
        copy(&mut store, name);
    }
    match (waiting.is_empty(), all_taken) {
        (false, _) => Err(Failure::Use("standard input: the last line has no line feed, and may be cut: it was not taken".into())),
        (true, true) => Ok(()),
        (true, false) => Err(Failure::Log(format!("{name}: a line was refused or could not be read"))),
    }
}

fn open(name: &str) -> Result<Store<Folder>, Failure> {
    let failed = |reason: io::Error| Failure::Use(format!("{name}: {reason}"));
    let folder = Folder::open(Path::new(name)).map_err(failed)?;
    let folder = folder.ok_or_else(|| Failure::Use(format!("{name}: in use by another process")))?;
    let mut told = |offered: usize| {
        if offered.is_multiple_of(OFFERED) {
            eprintln!("bozhtagul: {name}: {offered} records were offered again");
        }
    };
    let (store, found) = Store::open(folder, &mut told).map_err(|why| match why {
        Unopened::Disk(reason) => failed(reason),
        Unopened::Refused(refusal) => Failure::Use(format!("{name}/log: {refusal}; nothing was changed")),
        Unopened::Differs => Failure::Use(format!("{name}: the recorder has another commitment than its log; nothing was taken")),
    })?;
    tell(name, &found);
    Ok(store)
}

/// Says what was put in order.
fn tell(name: &str, found: &Found) {
    if let Some(position) = found.cut {
        eprintln!("bozhtagul: {name}/log: a record that was cut short at {position} was taken off: it was never answered");
    }
    if let Some(bytes) = found.missing_from {
        eprintln!("bozhtagul: {name}/log: {name}/memory is of a log of {bytes} bytes, all answered: records are missing from the log");
    }
    if found.copy_was_useless {
        eprintln!("bozhtagul: {name}/memory: not a copy for this log; {} records were offered again", found.offered);
    }
}

/// A copy that cannot be made costs time at the next opening, and nothing else.
fn copy(store: &mut Store<Folder>, name: &str) {
    if let Err(reason) = store.copy() {
        eprintln!("bozhtagul: {name}/memory: {reason}: there is no new copy");
    }
}

/// What a line comes to; none if it has no record.
fn answer(store: &mut Store<Folder>, line: &[u8]) -> Option<Answer> {
    let record = match textlog::record_of(line) {
        Ok(record) if record.is_empty() => return None,
        Ok(record) => record,
        Err(reason) => return Some(Answer::Unread(reason)),
    };
    Some(store.take(&record).map_or_else(Answer::Refused, Answer::Taken))
}

#[cfg(test)]
mod tests {
    use super::*;

    #[test]
    fn answers_as_text_and_in_json() {
        let taken = Answer::Taken(Taken { records: 3, commitment: [0xab; 32] });
        assert_eq!(taken.line(), format!("taken 3 {}\n", "ab".repeat(32)));
        assert_eq!(taken.json(), format!("{{\"accepted\":true,\"records\":3,\"commitment\":\"{}\"}}\n", "ab".repeat(32)));
        let refused = Answer::Refused(Refusal { number: 5, position: 0 });
        assert_eq!(refused.line(), "refused 5 at 0: time not above the record before\n");
        assert!(refused.json().starts_with("{\"accepted\":false,\"number\":5,\"position\":0,\"cause\":") && refused.json().ends_with("}\n"));
        let unread = Answer::Unread("the time is missing".into());
        assert_eq!(unread.line(), "unread: the time is missing\n");
        assert_eq!(unread.json(), "{\"accepted\":false,\"unread\":\"the time is missing\"}\n");
    }
}
