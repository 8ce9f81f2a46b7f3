//! Part two of the practical: whether a false answer passed, and if it did, what that shows.

use reference::collision::{self, Collision};
use reference::hex::to_hex;
use viewer::Refusal;

use crate::args;
use crate::asked::Asked;
use crate::calls;
use crate::command::Words;
use crate::failure::{Done, Failure};
use crate::files;
use crate::rows;

/// What became of an answer that was handed in as a false one.
enum Outcome {
    Refused(Refusal),
    /// Accepted, and not false.
    Defined,
    /// Accepted, though it is not the defined answer. By demand 3 there is a collision.
    Passed(Option<Collision>),
}

pub fn run(words: &Words) -> Done {
    let asked = words.asked(1).map_err(in_order)?;
    let (name, answer) = (words.plain(0), words.last());
    args::one_input(answer, name)?;
    let (answer, log) = (files::read(answer)?, files::read_log(name)?);
    match outcome(&asked, &log, &answer).map_err(|refusal| rows::refused_log(name, &refusal))? {
        Outcome::Refused(refusal) => Err(Failure::Answer(format!("not passed: {refusal}"))),
        Outcome::Defined => Err(Failure::Answer("not false: this is the true answer".into())),
        Outcome::Passed(collision) => files::write("-", passed(collision.as_ref())?.as_bytes()),
    }
}

/// The answer stood first once; whoever puts it there is told the order.
fn in_order(failure: Failure) -> Failure {
    match failure {
        Failure::Use(text) => Failure::Use(format!("{text}\nthe words are LOG DIRECTION ENTITY TIME [UNTIL] ANSWER, in this order")),
        other => other,
    }
}

/// Checks an answer against a log's commitment; refuses the log if it is not sound.
fn outcome(asked: &Asked, log: &[u8], answer: &[u8]) -> Result<Outcome, Refusal> {
    let commitment = calls::commitment(log)?;
    if let Err(refusal) = calls::checked(asked, &commitment, answer) {
        return Ok(Outcome::Refused(refusal));
    }
    if calls::answer(asked, log)? == answer {
        return Ok(Outcome::Defined);
    }
    Ok(Outcome::Passed(collision_of(asked, log, answer)))
}

/// The two strings, looked for among those that the Rust version hashes.
fn collision_of(asked: &Asked, log: &[u8], answer: &[u8]) -> Option<Collision> {
    let records = reference::log::read(log).ok()?;
    collision::find(calls::hash, &records, &asked.for_reference(), answer)
}

/// What is said of a false answer that passed. Whoever reads it can hash both strings anew.
fn passed(collision: Option<&Collision>) -> Result<String, Failure> {
    let Some(Collision { built, checked }) = collision else {
        return Err(Failure::Answer("passed, and no two strings with one hash were found: this contradicts what is proved".into()));
    };
    let lines = [
        ("hashed in building the commitment", to_hex(built)),
        ("hashed in the check", to_hex(checked)),
        ("SHA-256 of the first", to_hex(&calls::hash(built))),
        ("SHA-256 of the second", to_hex(&calls::hash(checked))),
    ];
    let lines: String = lines.iter().map(|(what, hex)| format!("{what}: {hex}\n")).collect();
    Ok(format!("passed: a false answer was accepted, by two different strings with one SHA-256 value\n{lines}"))
}

#[cfg(test)]
mod tests {
    use super::*;

    #[test]
    fn the_two_strings_are_shown_with_their_hashes() {
        let text = passed(Some(&Collision { built: b"abc".to_vec(), checked: vec![] })).unwrap();
        let lines: Vec<&str> = text.lines().collect();
        assert!(lines[0].starts_with("passed: "));
        assert_eq!(lines[1], "hashed in building the commitment: 616263");
        assert_eq!(lines[2], "hashed in the check: ");
        assert!(lines[3].ends_with(": ba7816bf8f01cfea414140de5dae2223b00361a396177a9cb410ff61f20015ad"), "{text}");
        assert!(lines[4].ends_with(": e3b0c44298fc1c149afbf4c8996fb92427ae41e4649b934ca495991b7852b855"), "{text}");
    }

    #[test]
    fn to_pass_without_two_strings_is_no_success() {
        assert!(matches!(passed(None), Err(Failure::Answer(text)) if text.contains("contradicts")));
    }
}
