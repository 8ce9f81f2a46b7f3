//! What a false answer that passes shows: two different strings, one hashed in building the commitment and one in the check, with one hash.

use std::collections::HashMap;

use crate::check::check_by;
use crate::hash::Keeping;
use crate::host::Host;
use crate::log::{Record, MOST_RECORDS};
use crate::question::Question;
use crate::refusal::WORK;
use crate::sha256::Digest;

/// Two different strings of one hash.
#[derive(Clone, Debug, PartialEq, Eq)]
pub struct Collision {
    /// Hashed in building the commitment.
    pub built: Vec<u8>,
    /// Hashed in the check.
    pub checked: Vec<u8>,
}

/// The strings hashed in building a sound log's commitment, which comes with them.
pub fn building(hash: fn(&[u8]) -> Digest, records: &[Record]) -> (Digest, Vec<Vec<u8>>) {
    let mut keeping = Keeping::new(hash);
    let commitment = Host::by(&mut keeping, records).commitment_by(&mut keeping);
    (commitment, keeping.strings)
}

/// The strings hashed in the check of an answer, with enough work area for any.
pub fn checking(hash: fn(&[u8]) -> Digest, question: &Question, commitment: &Digest, answer: &[u8]) -> Vec<Vec<u8>> {
    let mut keeping = Keeping::new(hash);
    // the verdict is not asked for here
    let _ = check_by(&mut keeping, question, commitment, answer, WORK * MOST_RECORDS);
    keeping.strings
}

/// A string of the check and another of the building with its hash, if there are two such. By demand 3 there are if the check accepts an
/// answer that is not the defined one.
pub fn find(hash: fn(&[u8]) -> Digest, records: &[Record], question: &Question, answer: &[u8]) -> Option<Collision> {
    let (commitment, strings) = building(hash, records);
    let mut built: HashMap<Digest, Vec<Vec<u8>>> = HashMap::new();
    for string in strings {
        built.entry(hash(&string)).or_default().push(string);
    }
    checking(hash, question, &commitment, answer).into_iter().find_map(|checked| {
        let other = built.get(&hash(&checked))?.iter().find(|string| **string != checked)?;
        Some(Collision { built: other.clone(), checked })
    })
}
