//! The number that settles the logs and questions of a mark.

use std::fs::File;
use std::io::Read;

use crate::command::Words;
use crate::failure::Failure;

/// The system's random source.
const SOURCE: &str = "/dev/urandom";

/// The seed given, or one that nobody could know before.
pub fn of(words: &Words) -> Result<u64, Failure> {
    match words.option("--seed") {
        Some(_) => words.number("--seed", 0),
        None => drawn(),
    }
}

fn drawn() -> Result<u64, Failure> {
    let mut bytes = [0; 8];
    let read = File::open(SOURCE).and_then(|mut source| source.read_exact(&mut bytes));
    read.map_err(|reason| Failure::Use(format!("{SOURCE}: {reason}: give a seed with --seed NUMBER")))?;
    Ok(u64::from_be_bytes(bytes))
}
