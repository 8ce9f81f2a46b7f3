//! The library's calls with the memory that they need.

use viewer::{Direction, Listed, Refusal, DIGEST, MOST_LISTING, MOST_RECORDS};

use crate::asked::Asked;
use crate::history::History;
use crate::said::Said;

/// A record of a log has at least this many bytes.
const LEAST_LOGGED: usize = 13;

/// No answer about a log of that many bytes is longer.
pub fn most_answer(log: usize) -> usize {
    let records = log / LEAST_LOGGED;
    viewer::most_answer(Direction::Forward, records).max(viewer::most_span_answer(records))
}

/// The bytes of a record with that command, if it is one.
pub fn record_width(command: u8) -> Option<usize> {
    match command {
        1 => Some(13),
        2 => Some(18),
        _ => None,
    }
}

/// The number of records of a log, which may be empty here.
pub fn records(log: &[u8]) -> Result<usize, Refusal> {
    match viewer::log(log) {
        Ok(records) => Ok(records as usize),
        Err(_) if log.is_empty() => Ok(0),
        Err(refusal) => Err(refusal),
    }
}

/// What the listing program prints for a log.
pub fn listing(log: &[u8]) -> Result<Vec<u8>, Refusal> {
    let mut out = vec![0; MOST_LISTING];
    let length = viewer::listing(log, &mut out)?;
    out.truncate(length as usize);
    Ok(out)
}

pub fn hash(message: &[u8]) -> [u8; DIGEST] {
    let mut out = [0; DIGEST];
    viewer::hash(message, &mut out).expect("32 bytes are enough");
    out
}

pub fn commitment(log: &[u8]) -> Result<[u8; DIGEST], Refusal> {
    let records = viewer::log(log)? as usize;
    let mut out = [0; DIGEST];
    viewer::commitment(log, &mut viewer::work_area(records), &mut out)?;
    Ok(out)
}

pub fn answer(asked: &Asked, log: &[u8]) -> Result<Vec<u8>, Refusal> {
    let records = viewer::log(log)? as usize;
    let mut work = viewer::work_area(records);
    let (length, mut out) = match asked {
        Asked::One(question) => {
            let mut out = vec![0; viewer::most_answer(question.direction, records)];
            (viewer::answer(question, log, &mut work, &mut out)?, out)
        }
        Asked::All(span) => {
            let mut out = vec![0; viewer::most_span_answer(records)];
            (viewer::answer_span(span, log, &mut work, &mut out)?, out)
        }
    };
    out.truncate(length as usize);
    Ok(out)
}

/// Checks an answer. The work area is enough for every trace and the output for every list, so that no answer meets row 12 or 13.
pub fn checked(asked: &Asked, commitment: &[u8; DIGEST], answer: &[u8]) -> Result<Said, Refusal> {
    match asked {
        Asked::One(question) => {
            let checked = viewer::checked(question, commitment, answer, &mut viewer::work_area(MOST_RECORDS))?;
            Ok(Said::One(checked.verdict, History::new(question.direction, checked.records.collect())))
        }
        Asked::All(span) => match viewer::check_span(span, commitment, answer, &mut viewer::list_for(answer))? {
            Listed::NoEntity => Ok(Said::NoEntity),
            Listed::Versions(versions) => Ok(Said::Listed(versions.collect())),
        },
    }
}

#[cfg(test)]
mod tests {
    use super::*;
    use viewer::Question;

    #[test]
    fn a_trace_that_claims_more_than_it_holds_is_cut_short() {
        let records = reference::sample::log_k();
        let log = reference::log::write(&records);
        let question = Asked::One(Question { direction: Direction::Backward, entity: 2, time: 35 });
        let mut answer = answer(&question, &log).unwrap();
        answer[395] = 0xff;
        assert_eq!(answer[393], b'B');
        let refusal = checked(&question, &commitment(&log).unwrap(), &answer).unwrap_err();
        assert_eq!((refusal.number, refusal.position), (19, 393));
        answer[394..398].copy_from_slice(&65_535u32.to_be_bytes());
        let refusal = checked(&question, &commitment(&log).unwrap(), &answer).unwrap_err();
        assert_eq!((refusal.number, refusal.position), (15, 446));
    }
}
