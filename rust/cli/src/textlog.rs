//! The text form of a log: a record a line, `birth ENTITY TIME` or `flow SOURCE DESTINATION KIND TIME`. What follows `#`, and empty
//! lines, say nothing. Every run of whole records has a text form, sound or not.

use std::str::SplitWhitespace;

use viewer::Refusal;

use crate::args::{self, Field};
use crate::calls::record_width;

const BIRTH: u8 = 1;
const FLOW: u8 = 2;

/// The bytes of the log that a text describes, or the first line that cannot be read, with the reason.
pub fn to_bytes(text: &[u8]) -> Result<Vec<u8>, String> {
    let mut log = Vec::new();
    for (place, line) in text.split(|byte| *byte == b'\n').enumerate() {
        let read = std::str::from_utf8(line).map_err(|_| "not UTF-8 text".to_string()).and_then(|line| record(line, &mut log));
        read.map_err(|reason| format!("line {}: {reason}{}", place + 1, hint(line)))?;
    }
    Ok(log)
}

/// The bytes of the record of one line, none if it has no record; else the reason why it cannot be read.
pub fn record_of(line: &[u8]) -> Result<Vec<u8>, String> {
    let mut bytes = Vec::new();
    let text = std::str::from_utf8(line).map_err(|_| "not UTF-8 text".to_string())?;
    record(text, &mut bytes)?;
    Ok(bytes)
}

/// What may help with a line that cannot be read: a log's first byte is no letter.
fn hint(line: &[u8]) -> &'static str {
    match line.iter().any(|byte| byte.is_ascii_control() && !byte.is_ascii_whitespace()) {
        true => " (if this is a log as bytes, 'log --text' writes its text form)",
        false => "",
    }
}

/// The line of a text whose record begins at a byte of the log.
pub fn line_of(text: &[u8], position: u64) -> Option<usize> {
    let mut log = Vec::new();
    let mut lines = text.split(|byte| *byte == b'\n').enumerate();
    lines.find_map(|(place, line)| {
        let start = log.len() as u64;
        std::str::from_utf8(line).ok().and_then(|line| record(line, &mut log).ok())?;
        (start == position && log.len() as u64 > start).then_some(place + 1)
    })
}

/// Appends the record of a line, if it has one.
fn record(line: &str, log: &mut Vec<u8>) -> Result<(), String> {
    let mut words = line.split('#').next().unwrap_or("").split_whitespace();
    match words.next() {
        None => return Ok(()),
        Some("birth") => {
            log.push(BIRTH);
            log.extend(field::<u32>(&mut words, "entity")?.to_be_bytes());
        }
        Some("flow") => {
            log.push(FLOW);
            log.extend(field::<u32>(&mut words, "source")?.to_be_bytes());
            log.extend(field::<u32>(&mut words, "destination")?.to_be_bytes());
            log.push(field(&mut words, "kind")?);
        }
        Some(other) => return Err(format!("'{other}' is neither birth nor flow")),
    }
    log.extend(field::<u64>(&mut words, "time")?.to_be_bytes());
    match words.next() {
        None => Ok(()),
        Some(word) => Err(format!("'{word}' stands after the record's end")),
    }
}

fn field<T: Field>(words: &mut SplitWhitespace, what: &str) -> Result<T, String> {
    args::field(what, words.next().ok_or_else(|| format!("the {what} is missing"))?)
}

/// The text of a log's records; else row 3 or 4, for bytes that are no record.
pub fn to_text(log: &[u8]) -> Result<String, Refusal> {
    let mut text = String::new();
    let mut place = 0;
    while let Some(command) = log.get(place) {
        let refused = |number| Refusal { number, position: place as u64 };
        let width = record_width(*command).ok_or_else(|| refused(3))?;
        line(log.get(place..place + width).ok_or_else(|| refused(4))?, &mut text);
        place += width;
    }
    Ok(text)
}

/// Appends the line of a whole record.
fn line(record: &[u8], text: &mut String) {
    let entity = |place: usize| u32::from_be_bytes(std::array::from_fn(|byte| record[place + byte]));
    let time = u64::from_be_bytes(std::array::from_fn(|byte| record[record.len() - 8 + byte]));
    *text += &match record[0] {
        BIRTH => format!("birth {} {time}\n", entity(1)),
        _ => format!("flow {} {} {} {time}\n", entity(1), entity(5), record[9]),
    };
}

#[cfg(test)]
mod tests {
    use super::*;
    use reference::random::{self, Random};

    #[test]
    fn log_k_has_the_bytes_of_the_rust_version() {
        let text = "# Log K\n\nbirth 1 10\n  birth\t2 20 # the second\r\nflow 1 2 7 30\nflow 2 1 8 40";
        let log = reference::log::write(&reference::sample::log_k());
        assert_eq!(to_bytes(text.as_bytes()), Ok(log.clone()));
        assert_eq!(to_text(&log), Ok("birth 1 10\nbirth 2 20\nflow 1 2 7 30\nflow 2 1 8 40\n".to_string()));
    }

    #[test]
    fn every_sound_log_comes_back() {
        let mut random = Random::new(1);
        for _ in 0..200 {
            let log = random::sound_log(&mut random, 60);
            assert_eq!(to_bytes(to_text(&log).unwrap().as_bytes()), Ok(log));
        }
    }

    #[test]
    fn an_unsound_log_comes_back() {
        let text = "flow 9 9 255 18446744073709551615\nbirth 4294967295 0\n";
        let log = to_bytes(text.as_bytes()).unwrap();
        assert_eq!(log.len(), 31);
        assert_eq!(to_text(&log), Ok(text.to_string()));
    }

    #[test]
    fn a_bad_line_is_named() {
        for (text, said) in [
            ("death 1 10", "line 1: 'death' is neither birth nor flow"),
            ("birth 1 10\n\nbirth 2", "line 3: the time is missing"),
            ("birth", "line 1: the entity is missing"),
            ("#\nbirth 1 10 7", "line 2: '7' stands after the record's end"),
            ("flow 1 2 256 30", "line 1: kind '256' is no whole number from 0 to 255"),
            ("flow 1 4294967296 7 30", "line 1: destination '4294967296' is no whole number from 0 to 4294967295"),
            ("birth -1 10", "line 1: entity '-1' is no whole number from 0 to 4294967295"),
        ] {
            assert_eq!(to_bytes(text.as_bytes()), Err(said.to_string()));
        }
        assert_eq!(to_bytes(b"birth 1 10\n\xff"), Err("line 2: not UTF-8 text".to_string()));
    }

    #[test]
    fn one_line_is_a_record_or_none() {
        let log = reference::log::write(&reference::sample::log_k());
        assert_eq!(record_of(b"flow 1 2 7 30 # the first\r\n"), Ok(log[26..44].to_vec()));
        assert_eq!((record_of(b""), record_of(b" # none\n")), (Ok(vec![]), Ok(vec![])));
        assert_eq!(record_of(b"birth 1"), Err("the time is missing".to_string()));
        assert_eq!(record_of(b"\xff\n"), Err("not UTF-8 text".to_string()));
    }

    #[test]
    fn bytes_that_are_no_record_have_no_text() {
        let log = reference::log::write(&reference::sample::log_k());
        let refused = |number, position| Err(Refusal { number, position });
        assert_eq!(to_text(&log[..61]), refused(4, 44));
        assert_eq!(to_text(&log[..27]), refused(4, 26));
        let mut other = log;
        other[13] = 3;
        assert_eq!(to_text(&other), refused(3, 13));
    }
}
