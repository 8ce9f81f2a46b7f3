//! The exported hash against NIST's vectors and the Rust version.

use reference::random::Random;
use reference::vectors;
use viewer::Refusal;

fn digest(message: &[u8]) -> [u8; 32] {
    let mut out = [0; 32];
    viewer::hash(message, &mut out).expect("32 bytes are enough");
    out
}

#[test]
fn nist_messages() {
    let vectors = vectors::messages();
    assert_eq!(vectors.len(), 65 + 64);
    for vector in vectors {
        assert_eq!(digest(&vector.message)[..], vector.digest, "{} bytes", vector.message.len());
    }
}

#[test]
fn nist_monte_carlo() {
    let values = vectors::monte_carlo(digest);
    assert_eq!(values.len(), 100);
    for (given, expected) in values {
        assert_eq!(given, expected);
    }
}

#[test]
fn every_short_length_and_some_large() {
    let mut random = Random::new(7);
    for length in (0..=300).chain([1000, 4095, 4096, 4097, 65_536, 1_000_003]) {
        for _ in 0..3 {
            let message = random.bytes(length);
            assert_eq!(digest(&message), reference::sha256::sha256(&message), "{length} bytes");
        }
    }
}

#[test]
fn output_of_every_length() {
    let mut random = Random::new(8);
    for length in 0..=100 {
        let message = random.bytes(77);
        let before = random.bytes(length);
        let (mut out, mut expected) = (before.clone(), before.clone());
        let result = viewer::hash(&message, &mut out);
        let outcome = reference::hash(&message, &mut expected);
        assert_eq!(out, expected, "{length} bytes of output");
        if length < 32 {
            assert_eq!(result, Err(Refusal { number: 13, position: 0 }));
            assert_eq!(out, before);
        } else {
            assert_eq!(result, Ok(()));
            assert_eq!(out[32..], before[32..]);
        }
        assert_eq!(result.err().map_or(0, |refusal| refusal.number), outcome.number);
    }
}
