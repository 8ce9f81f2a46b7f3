//! NIST's SHA-256 vectors, the constants by their definition, and pieces against one shot.

mod common;

use reference::hex::to_hex;
use reference::random::Random;
use reference::sha256::{sha256, Sha256, INITIAL, ROUND_CONSTANTS};
use reference::vectors;

#[test]
fn nist_messages() {
    let vectors = vectors::messages();
    assert_eq!(vectors.len(), 65 + 64);
    for vector in vectors {
        assert_eq!(sha256(&vector.message)[..], vector.digest, "{} bytes", vector.message.len());
    }
}

#[test]
fn nist_monte_carlo() {
    let values = vectors::monte_carlo(sha256);
    assert_eq!(values.len(), 100);
    for (given, expected) in values {
        assert_eq!(given, expected);
    }
}

fn primes() -> impl Iterator<Item = u128> {
    (2u128..).filter(|&n| (2..n).all(|d| n % d != 0))
}

/// The low 32 bits of the greatest whole number whose power is at most the prime
/// times two to the power times 32.
fn root(prime: u128, power: u32) -> u32 {
    let target = prime << (32 * power);
    let (mut low, mut high) = (0u128, 1u128 << 38);
    while high - low > 1 {
        let middle = (low + high) / 2;
        if middle.pow(power) <= target {
            low = middle;
        } else {
            high = middle;
        }
    }
    low as u32
}

#[test]
fn constants_are_roots_of_primes() {
    let cube: Vec<u32> = primes().take(64).map(|prime| root(prime, 3)).collect();
    assert_eq!(cube, ROUND_CONSTANTS);
    let square: Vec<u32> = primes().take(8).map(|prime| root(prime, 2)).collect();
    assert_eq!(square, INITIAL);
}

/// FIPS 180-4 as it stands: padding of the whole message, 64 plain rounds.
fn plain(message: &[u8]) -> [u8; 32] {
    let mut padded = message.to_vec();
    padded.push(0x80);
    while padded.len() % 64 != 56 {
        padded.push(0);
    }
    padded.extend_from_slice(&(8 * message.len() as u64).to_be_bytes());
    let mut h = INITIAL;
    for block in padded.chunks(64) {
        let mut w: Vec<u32> = block.chunks(4).map(|b| u32::from_be_bytes(b.try_into().unwrap())).collect();
        for t in 16..64 {
            let (x, y) = (w[t - 2], w[t - 15]);
            let one = x.rotate_right(17) ^ x.rotate_right(19) ^ (x >> 10);
            let zero = y.rotate_right(7) ^ y.rotate_right(18) ^ (y >> 3);
            w.push(one.wrapping_add(w[t - 7]).wrapping_add(zero).wrapping_add(w[t - 16]));
        }
        let mut v = h;
        for t in 0..64 {
            let [a, b, c, d, e, f, g, last] = v;
            let t1 = last
                .wrapping_add(e.rotate_right(6) ^ e.rotate_right(11) ^ e.rotate_right(25))
                .wrapping_add((e & f) ^ (!e & g))
                .wrapping_add(ROUND_CONSTANTS[t])
                .wrapping_add(w[t]);
            let t2 = (a.rotate_right(2) ^ a.rotate_right(13) ^ a.rotate_right(22))
                .wrapping_add((a & b) ^ (a & c) ^ (b & c));
            v = [t1.wrapping_add(t2), a, b, c, d.wrapping_add(t1), e, f, g];
        }
        for (sum, word) in h.iter_mut().zip(v) {
            *sum = sum.wrapping_add(word);
        }
    }
    h.map(u32::to_be_bytes).concat().try_into().unwrap()
}

#[test]
fn every_length_against_the_plain_form() {
    let message = Random::new(1).bytes(400);
    for length in 0..=message.len() {
        assert_eq!(sha256(&message[..length]), plain(&message[..length]), "{length}");
    }
}

#[test]
fn pieces_give_the_same_digest() {
    let mut random = Random::new(2);
    let message = random.bytes(700);
    for length in 0..=200 {
        for cut in 0..=length {
            let mut hash = Sha256::new();
            hash.update(&message[..cut]);
            hash.update(&message[cut..length]);
            assert_eq!(hash.finish(), sha256(&message[..length]), "{cut} of {length}");
        }
    }
    for _ in 0..2000 {
        let length = random.index(message.len() + 1);
        let mut hash = Sha256::new();
        let mut place = 0;
        while place < length {
            let next = (place + random.index(150)).min(length);
            hash.update(&message[place..next]);
            place = next;
        }
        assert_eq!(hash.finish(), sha256(&message[..length]));
    }
}

#[test]
fn hash_writes_32_bytes_or_refuses() {
    for length in 0..40 {
        let (outcome, written) = common::with_output(length, |out| {
            let outcome = reference::hash(b"abc", out);
            (outcome, if outcome.number == 0 { 32 } else { 0 })
        });
        if length < 32 {
            assert_eq!((outcome.number, outcome.position), (13, 0));
        } else {
            assert_eq!((outcome.number, outcome.position), (0, 0));
            assert_eq!(to_hex(&written), "ba7816bf8f01cfea414140de5dae2223b00361a396177a9cb410ff61f20015ad");
        }
    }
}
