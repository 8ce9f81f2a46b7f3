//! NIST's SHA-256 vectors, the files of `vectors/`, to be run with any implementation.

use crate::hex::from_hex;

const SHORT: &str = include_str!("../vectors/SHA256ShortMsg.rsp");
const LONG: &str = include_str!("../vectors/SHA256LongMsg.rsp");
const MONTE_CARLO: &str = include_str!("../vectors/SHA256Monte.rsp");

/// A message and its digest.
pub struct Vector {
    pub message: Vec<u8>,
    pub digest: Vec<u8>,
}

/// The values of the lines `name = value`.
fn values<'a>(text: &'a str, name: &'a str) -> impl Iterator<Item = &'a str> {
    text.lines()
        .filter_map(|line| line.split_once(" = "))
        .filter(move |(key, _)| *key == name)
        .map(|(_, value)| value.trim())
}

fn vectors(text: &str) -> impl Iterator<Item = Vector> + '_ {
    values(text, "Len").zip(values(text, "Msg")).zip(values(text, "MD")).map(|((bits, message), digest)| {
        let length = bits.parse::<usize>().unwrap() / 8;
        Vector { message: from_hex(message)[..length].to_vec(), digest: from_hex(digest) }
    })
}

/// The 65 short and 64 long messages.
pub fn messages() -> Vec<Vector> {
    vectors(SHORT).chain(vectors(LONG)).collect()
}

/// The 100 values of the Monte Carlo test, each a chain of 1,000 digests from the one before: what the implementation gives, and
/// what it should give.
pub fn monte_carlo(hash: impl Fn(&[u8]) -> [u8; 32]) -> Vec<(Vec<u8>, Vec<u8>)> {
    let mut seed = from_hex(values(MONTE_CARLO, "Seed").next().unwrap());
    let expected = values(MONTE_CARLO, "MD").map(from_hex);
    expected
        .map(|digest| {
            let mut last = [seed.clone(), seed.clone(), seed.clone()];
            for _ in 0..1000 {
                let next = hash(&last.concat()).to_vec();
                last.rotate_left(1);
                last[2] = next;
            }
            seed = last[2].clone();
            (seed.clone(), digest)
        })
        .collect()
}
