//! Request A3: the built library holds no round constant of SHA-256 as data, nor primes to make them of, and works them out once a call.

use reference::sha256::{INITIAL, ROUND_CONSTANTS};
use std::path::{Path, PathBuf};

fn root() -> PathBuf {
    Path::new(env!("CARGO_MANIFEST_DIR")).join("../..")
}

fn library() -> Vec<u8> {
    std::fs::read(Path::new(env!("BOZHTAGUL_LIBRARY_DIR")).join("libbozhtagul.a")).expect("the static library")
}

fn holds(bytes: &[u8], part: &[u8]) -> bool {
    bytes.windows(part.len()).any(|window| window == part)
}

/// In either byte order.
fn holds_word(bytes: &[u8], word: u32) -> bool {
    holds(bytes, &word.to_le_bytes()) || holds(bytes, &word.to_be_bytes())
}

/// A list of numbers of 1, 2, 4 or 8 bytes, in either byte order.
fn holds_list(bytes: &[u8], list: &[u64]) -> bool {
    [1, 2, 4, 8].into_iter().any(|width| {
        let little: Vec<u8> = list.iter().flat_map(|number| number.to_le_bytes()[..width].to_vec()).collect();
        let big: Vec<u8> = list.iter().flat_map(|number| number.to_be_bytes()[8 - width..].to_vec()).collect();
        holds(bytes, &little) || holds(bytes, &big)
    })
}

const FIRST_PRIMES: [u64; 5] = [2, 3, 5, 7, 11];
const DIFFERENCES: [u64; 9] = [1, 2, 2, 4, 2, 4, 2, 4, 6];

#[test]
fn no_round_constant_is_held() {
    let library = library();
    for constant in ROUND_CONSTANTS {
        assert!(!holds_word(&library, constant), "{constant:08x}");
    }
}

#[test]
fn no_list_of_primes_is_held() {
    let library = library();
    assert!(!holds_list(&library, &FIRST_PRIMES));
    assert!(!holds_list(&library, &DIFFERENCES));
}

/// The eight words of the initial hash value are held: what is held is found.
#[test]
fn what_is_held_is_found() {
    let library = library();
    for word in INITIAL {
        assert!(holds_word(&library, word), "{word:08x}");
    }
    let with = |part: &[u8]| [&library[..], part, &[0]].concat();
    assert!(holds_word(&with(&ROUND_CONSTANTS[63].to_le_bytes()), ROUND_CONSTANTS[63]));
    assert!(holds_word(&with(&ROUND_CONSTANTS[0].to_be_bytes()), ROUND_CONSTANTS[0]));
    assert!(holds_list(&with(&FIRST_PRIMES.map(|prime| prime as u8)), &FIRST_PRIMES));
    assert!(holds_list(&with(&FIRST_PRIMES.map(u64::to_be_bytes).concat()), &FIRST_PRIMES));
    assert!(holds_list(&with(&DIFFERENCES.map(|number| (number as u32).to_le_bytes()).concat()), &DIFFERENCES));
}

/// The functions of the proved crates in whose body a text stands, each as often as it does.
fn functions_with(text: &str) -> Vec<String> {
    let mut found = Vec::new();
    for entry in std::fs::read_dir(root().join("crates")).expect("the crates") {
        let folder = entry.expect("a crate").path();
        let name = folder.file_name().expect("its name").to_string_lossy().into_owned();
        let Ok(source) = std::fs::read_to_string(folder.join("src/lib.rt")) else { continue };
        let mut function = "";
        for line in source.lines() {
            if let Some((_, rest)) = line.split_once("fn ").filter(|(before, _)| !before.contains("//")) {
                function = rest.split(['(', '<']).next().expect("a name");
            }
            found.extend(line.matches(text).map(|_| format!("{name}::{function}")));
        }
    }
    found.sort();
    found
}

/// Each exported call that hashes reaches one of them, once: never a string or a block.
#[test]
fn the_constants_are_worked_out_at_the_top_of_a_call() {
    let recorder = ["recorder_calls::compute_commitment", "recorder_calls::take_birth", "recorder_calls::take_flow"];
    let expected = [&["checker::check_all", "checker::run_one", "host::compute_commitment", "host::write_answer"][..], &recorder, &["sha256::hash"]].concat();
    assert_eq!(functions_with("round_constants::work_out()"), expected);
}
