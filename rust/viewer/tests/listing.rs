//! The exported listing, and the listing program, against the Rust version.

use reference::log::{write, Record};
use reference::random::{self, Random};
use reference::sample::{birth, births, flow, in_turn, log_k};
use std::io::Write;
use std::process::{Command, Stdio};
use viewer::Refusal;

/// The proved program, which `rt` builds.
const PROGRAM: &str = concat!(env!("CARGO_MANIFEST_DIR"), "/../../crates/listing_main/out/listing_main");

/// Into an output of some length: the whole output afterwards, and the result, are those of the Rust version.
fn list_into(random: &mut Random, input: &[u8], length: usize) -> Result<u64, Refusal> {
    let before = random.bytes(length);
    let (mut out, mut expected) = (before.clone(), before);
    let given = viewer::listing(input, &mut out);
    let written = reference::listing(input, &mut expected);
    assert_eq!(out, expected, "{length} bytes of output");
    match written.number {
        0 => assert_eq!(given, Ok(written.length)),
        number => assert_eq!(given, Err(Refusal { number, position: written.position })),
    }
    given
}

/// The proved library's text for an input, which is the Rust version's.
fn list(random: &mut Random, input: &[u8]) -> String {
    let text = reference::listing::text(input);
    let length = text.len() + random.index(40);
    assert_eq!(list_into(random, input, length), Ok(text.len() as u64));
    text
}

/// What the program prints. It may end before it has read a long input whole.
fn run(input: &[u8]) -> String {
    let mut program = Command::new(PROGRAM)
        .stdin(Stdio::piped())
        .stdout(Stdio::piped())
        .spawn()
        .expect("`rt run` in crates/listing_main builds the program");
    let _ = program.stdin.take().unwrap().write_all(input);
    String::from_utf8(program.wait_with_output().unwrap().stdout).unwrap()
}

/// Inputs with what is printed for them, by hand.
fn by_hand() -> Vec<(Vec<u8>, &'static str)> {
    let then = |more: &[Record]| write(&[&log_k()[..], more].concat());
    let after = |count: usize, more: &[u8]| [&write(&births(count))[..], more].concat();
    vec![
        (write(&log_k()), "1 10 birth\n2 20 birth\n2 30 flow 7 from 1 10\n1 40 flow 8 from 2 30\n"),
        (vec![], "refused 1 at 0\n"),
        (then(&[])[1..].to_vec(), "refused 3 at 0\n"),
        (then(&[])[..61].to_vec(), "refused 4 at 44\n"),
        (write(&[birth(1, 10), birth(2, 10)]), "refused 5 at 13\n"),
        (then(&[birth(2, 50)]), "refused 6 at 62\n"),
        (write(&log_k()[2..]), "refused 7 at 0\n"),
        (then(&[flow(1, 4, 7, 50)]), "refused 8 at 62\n"),
        (then(&[flow(1, 1, 7, 50)]), "refused 9 at 62\n"),
        (write(&[birth(0, 0)]), "0 0 birth\n"),
        (write(&[birth(u32::MAX, u64::MAX)]), "4294967295 18446744073709551615 birth\n"),
        (write(&births(513)), "too long\n"),
        (after(512, &[9]), "too long\n"),
        (after(511, &[9]), "refused 3 at 6643\n"),
        (after(511, &[&write(&[birth(0, 600)])[..], &[9; 2000]].concat()), "refused 6 at 6643\n"),
        (vec![9; 9216], "refused 3 at 0\n"),
        (vec![9; 9217], "too long\n"),
        (vec![9; 100_000], "too long\n"),
    ]
}

/// The longest input that is listed: 2 births and 510 flows; and with more bytes up to the limit, and above it.
fn longest() -> [Vec<u8>; 3] {
    let log = write(&in_turn(512));
    assert_eq!(log.len(), 9206);
    [log.clone(), [&log[..], &[2; 10]].concat(), [&log[..], &[2; 11]].concat()]
}

/// A sound log, which may go past 512 records, or one that is damaged or has a fault.
fn any_log(random: &mut Random) -> Vec<u8> {
    let most = [6, 60, 600][random.index(3)];
    if random.once_in(4) {
        return random::nearly_sound_log(random, most).log;
    }
    let mut log = random::sound_log(random, most);
    if random.once_in(2) {
        random::damage_log(random, &mut log);
    }
    log
}

#[test]
fn texts_by_hand() {
    let random = &mut Random::new(31);
    for (input, text) in by_hand() {
        assert_eq!(list(random, &input), text);
    }
    assert_eq!(list(random, &write(&births(512))).lines().count(), 512);
    let [log, full, above] = longest();
    let text = list(random, &log);
    assert_eq!(text.lines().count(), 512);
    assert!(text.ends_with("\n0 511 flow 255 from 1 510\n"));
    assert_eq!(list(random, &full), "too long\n");
    assert_eq!(list(random, &above), "too long\n");
}

#[test]
fn random_and_damaged_logs() {
    let random = &mut Random::new(32);
    let (mut listed, mut long, mut refused) = (0, 0, 0);
    for _ in 0..5_000 {
        let log = any_log(random);
        match list(random, &log) {
            text if text == "too long\n" => long += 1,
            text if text.starts_with("refused") => refused += 1,
            _ => listed += 1,
        }
    }
    assert!(listed > 1000 && long > 10 && refused > 1000, "{listed} {long} {refused}");
}

#[test]
fn outputs_of_every_length_near_the_text() {
    let random = &mut Random::new(33);
    for (input, text) in by_hand() {
        for length in (0..text.len() + 20).chain([70_000]) {
            let result = list_into(random, &input, length);
            assert_eq!(result.is_ok(), length >= text.len());
        }
    }
    for _ in 0..300 {
        let log = any_log(random);
        let most = reference::listing::text(&log).len();
        for length in most - 3..most + 4 {
            assert_eq!(list_into(random, &log, length).is_ok(), length >= most);
        }
    }
}

#[test]
fn the_program_prints_the_text() {
    for (input, text) in by_hand() {
        assert_eq!(run(&input), text);
    }
    for input in longest().into_iter().chain([write(&births(512))]) {
        assert_eq!(run(&input), reference::listing::text(&input));
    }
    let random = &mut Random::new(34);
    for _ in 0..300 {
        let log = any_log(random);
        assert_eq!(run(&log), reference::listing::text(&log));
    }
}

#[test]
fn a_text_that_cannot_be_written_is_said() {
    let full = std::fs::File::options().write(true).open("/dev/full").expect("/dev/full");
    let mut program = Command::new(PROGRAM).stdin(Stdio::null()).stdout(full).stderr(Stdio::piped()).spawn().expect("the program");
    drop(program.stdin.take());
    assert_eq!(program.wait_with_output().unwrap().stderr, b"the listing cannot be written\n");
}
