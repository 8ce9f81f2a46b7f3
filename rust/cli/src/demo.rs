//! A small log from beginning to end.

use reference::hex::to_hex;
use viewer::{Direction, Question, Refusal, Span};

use crate::asked::Asked;
use crate::calls;
use crate::command::Words;
use crate::failure::{Done, Failure};
use crate::files;
use crate::textlog;

/// Document 01's Log K.
const LOG_K: &str = "birth 1 10\nbirth 2 20\nflow 1 2 7 30\nflow 2 1 8 40\n";

const QUESTIONS: [Asked; 5] = [
    Asked::One(Question { direction: Direction::Backward, entity: 2, time: 35 }),
    Asked::One(Question { direction: Direction::Forward, entity: 1, time: 39 }),
    Asked::One(Question { direction: Direction::ForwardAfter, entity: 2, time: 21 }),
    Asked::One(Question { direction: Direction::VersionOnlyAfter, entity: 2, time: 31 }),
    Asked::All(Span { entity: 1, from: 10, until: 40 }),
];

pub fn run(_: &Words) -> Done {
    let log = textlog::to_bytes(LOG_K.as_bytes()).map_err(Failure::Use)?;
    let text = told(&log).map_err(|refusal| Failure::Log(refusal.to_string()))?;
    files::write("-", text.as_bytes())
}

/// The whole story of a log.
fn told(log: &[u8]) -> Result<String, Refusal> {
    let commitment = calls::commitment(log)?;
    let mut text = part("A log of who fed whom, as text: entities are born, and flow into each other", LOG_K);
    text += &part("Its versions, by the listing program", &String::from_utf8_lossy(&calls::listing(log)?));
    text += &part("The recorder keeps 32 bytes of it, the commitment", &format!("{}\n", to_hex(&commitment)));
    for asked in &QUESTIONS {
        text += &answered(asked, log, &commitment)?;
    }
    Ok(text + &altered(&QUESTIONS[0], log, &commitment)?)
}

/// A heading, and what stands below it.
fn part(heading: &str, body: &str) -> String {
    let body: String = body.lines().map(|line| format!("    {line}\n")).collect();
    format!("{heading}:\n{body}\n")
}

/// A question, the host's answer, and what the check makes of it.
fn answered(asked: &Asked, log: &[u8], commitment: &[u8; 32]) -> Result<String, Refusal> {
    let answer = calls::answer(asked, log)?;
    let said = calls::checked(asked, commitment, &answer)?;
    let heading = format!("Asked: {asked}. The host answers with {} bytes, and the check accepts", answer.len());
    Ok(part(&heading, &format!("{}\n{}", said.verdict(asked), said.lines())))
}

/// The answer with its last flow's kind altered, and the row that refuses it.
fn altered(asked: &Asked, log: &[u8], commitment: &[u8; 32]) -> Result<String, Refusal> {
    /// From the answer's end: the kind, and the positions of the two versions.
    const KIND_FROM_END: usize = 9;
    let mut answer = calls::answer(asked, log)?;
    let place = answer.len() - KIND_FROM_END;
    let before = answer[place];
    answer[place] ^= 1;
    let told = match calls::checked(asked, commitment, &answer) {
        Ok(said) => said.verdict(asked),
        Err(refusal) => refusal.to_string(),
    };
    let heading = format!("The same answer to '{asked}' with byte {place} changed from {before} to {}", answer[place]);
    Ok(part(&heading, &told))
}
