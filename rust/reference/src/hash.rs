//! What hashes the strings: SHA-256 in every call. Another hash may stand in its place, to see what a weak one lets through, and what is
//! hashed may be kept.

use crate::lanes;
use crate::sha256::{sha256, Digest};

pub trait Hash {
    fn of(&mut self, string: &[u8]) -> Digest;

    /// The digests of strings of one length, in order.
    fn of_all<const N: usize>(&mut self, strings: &[[u8; N]]) -> Vec<Digest> {
        strings.iter().map(|string| self.of(string)).collect()
    }

    /// The digest of a string that comes again and again. It may be kept in `known`, which belongs to this string and is none at first.
    fn of_repeated(&mut self, string: &[u8], _known: &mut Option<Digest>) -> Digest {
        self.of(string)
    }
}

/// SHA-256: strings of one length side by side, a string that comes again and again once.
pub struct H;

impl Hash for H {
    fn of(&mut self, string: &[u8]) -> Digest {
        sha256(string)
    }

    fn of_all<const N: usize>(&mut self, strings: &[[u8; N]]) -> Vec<Digest> {
        lanes::digests(strings)
    }

    fn of_repeated(&mut self, string: &[u8], known: &mut Option<Digest>) -> Digest {
        *known.get_or_insert_with(|| sha256(string))
    }
}

/// SHA-256 of every string by itself, to compare with.
pub struct OneByOne;

impl Hash for OneByOne {
    fn of(&mut self, string: &[u8]) -> Digest {
        sha256(string)
    }
}

/// A hash that keeps the strings it was given.
pub struct Keeping {
    hash: fn(&[u8]) -> Digest,
    pub strings: Vec<Vec<u8>>,
}

impl Keeping {
    pub fn new(hash: fn(&[u8]) -> Digest) -> Self {
        Keeping { hash, strings: Vec::new() }
    }
}

impl Hash for Keeping {
    fn of(&mut self, string: &[u8]) -> Digest {
        self.strings.push(string.to_vec());
        (self.hash)(string)
    }
}
