//! What the words of a command may be.

use std::env;

use reference::hex;
use viewer::{Direction, Span, DIRECTIONS};

use crate::failure::Failure;
use crate::files;

/// The program's own arguments.
pub fn given() -> Result<Vec<String>, Failure> {
    let text = |word: std::ffi::OsString| word.into_string().map_err(|word| Failure::Use(format!("{word:?} is not UTF-8 text")));
    env::args_os().skip(1).map(text).collect()
}

pub fn asks_help(word: &str) -> bool {
    word == "--help" || word == "-h"
}

/// Whether a direction is the one that all versions between two times have.
pub fn is_between(word: &str) -> bool {
    word == Span::WORD || word == Span::DIRECTION.to_string()
}

/// The direction of a question about one version.
pub fn direction(word: &str) -> Result<Direction, Failure> {
    let unknown = |_| {
        let words: String = DIRECTIONS.iter().map(|direction| format!("{direction}, ")).collect();
        Failure::Use(format!("DIRECTION '{word}' is none of {words}{}, 0 to {}", Span::WORD, Span::DIRECTION))
    };
    word.parse().map_err(unknown)
}

/// A field's whole numbers, all of which fit 64 bits.
pub trait Field: TryFrom<u64> {
    const MOST: u64;
}

impl Field for u8 {
    const MOST: u64 = u8::MAX as u64;
}

impl Field for u32 {
    const MOST: u64 = u32::MAX as u64;
}

impl Field for u64 {
    const MOST: u64 = u64::MAX;
}

/// A decimal number that fits its field.
pub fn number<T: Field>(what: &str, word: &str) -> Result<T, Failure> {
    field(what, word).map_err(Failure::Use)
}

/// The same, with the reason alone where it is none.
pub fn field<T: Field>(what: &str, word: &str) -> Result<T, String> {
    let wrong = || format!("{what} '{word}' is no whole number from 0 to {}", T::MOST);
    word.parse::<u64>().ok().and_then(|number| T::try_from(number).ok()).ok_or_else(wrong)
}

/// A commitment: 64 hex digits, or a file that holds them or the 32 bytes themselves.
pub fn commitment(word: &str) -> Result<[u8; 32], Failure> {
    if let Some(commitment) = from_hex(word) {
        return Ok(commitment);
    }
    let bytes = files::read(word).map_err(|failure| nearly_hex(word).unwrap_or(failure))?;
    let text = std::str::from_utf8(&bytes).ok().and_then(|text| from_hex(text.trim()));
    text.or_else(|| bytes.as_slice().try_into().ok()).ok_or_else(|| {
        let name = files::input_name(word);
        Failure::Use(format!("{name}: a commitment is 64 hex digits or 32 bytes, and this is neither ({} bytes)", bytes.len()))
    })
}

/// What is wrong with a word that was meant as hex digits and names no file.
fn nearly_hex(word: &str) -> Option<Failure> {
    let digits = word.strip_prefix("0x").or(word.strip_prefix("0X"));
    let hint = |text: &str| Failure::Use(format!("{word}: {text}"));
    let is_hex = |text: &str| text.len() >= 32 && text.bytes().all(|digit| digit.is_ascii_hexdigit());
    match digits {
        Some(digits) if is_hex(digits) => Some(hint("a commitment is written without 0x, as 64 hex digits")),
        None if is_hex(word) => Some(hint(&format!("a commitment has 64 hex digits, this has {}", word.len()))),
        _ => None,
    }
}

fn from_hex(text: &str) -> Option<[u8; 32]> {
    if text.len() != 64 || !text.bytes().all(|digit| digit.is_ascii_hexdigit()) {
        return None;
    }
    hex::from_hex(text).try_into().ok()
}

/// Two files of one command, of which no more than one may be standard input.
pub fn one_input(first: &str, second: &str) -> Result<(), Failure> {
    match (first, second) {
        ("-", "-") => Err(Failure::Use("standard input can be read only once: '-' stands twice".into())),
        _ => Ok(()),
    }
}

#[cfg(test)]
mod tests {
    use super::*;

    #[test]
    fn a_word_that_is_no_direction_is_said() {
        assert_eq!(direction("backward"), Ok(Direction::Backward));
        assert_eq!((direction("backward-after"), direction("4")), (Ok(Direction::BackwardAfter), Ok(Direction::BackwardAfter)));
        let said = "DIRECTION '7' is none of only, backward, forward, only-after, backward-after, forward-after, between, 0 to 6";
        assert_eq!(direction("7"), Err(Failure::Use(said.into())));
        assert_eq!(["between", "6", "5", "7", "Between", ""].map(is_between), [true, true, false, false, false, false]);
    }

    #[test]
    fn numbers_fit_their_field() {
        assert_eq!(number("ENTITY", "4294967295"), Ok(u32::MAX));
        assert!(number::<u32>("ENTITY", "4294967296").is_err());
        assert_eq!(number("TIME", "18446744073709551615"), Ok(u64::MAX));
        assert!(number::<u64>("TIME", "18446744073709551616").is_err());
        assert!(number::<u64>("TIME", "-1").is_err());
        assert_eq!(number::<u8>("KIND", "256"), Err(Failure::Use("KIND '256' is no whole number from 0 to 255".into())));
    }

    #[test]
    fn nearly_a_commitment_is_told() {
        let said = |word: &str| commitment(word).map_err(|failure| format!("{failure:?}")).unwrap_err();
        assert!(said(&"a".repeat(63)).contains("has 64 hex digits, this has 63"));
        assert!(said(&("0x".to_string() + &"a".repeat(64))).contains("without 0x"));
        assert!(said("abc").contains("No such file"));
    }

    #[test]
    fn hex_of_64_digits_in_either_case() {
        let bytes: [u8; 32] = std::array::from_fn(|place| (place * 8 + 3) as u8);
        let text = hex::to_hex(&bytes);
        assert_eq!(from_hex(&text), Some(bytes));
        assert_eq!(from_hex(&text.to_uppercase()), Some(bytes));
        assert_eq!(from_hex(&text[1..]), None);
        assert_eq!(from_hex(&format!("{}+f", &text[2..])), None);
    }
}
