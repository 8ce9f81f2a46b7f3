//! The exported commitment against the Rust version.

use reference::log::{write, Record};
use reference::random::{self, Random};
use reference::sample::{birth, births, flow, log_k, one_source};
use viewer::Refusal;

/// The call with a work area and an output of the given lengths, filled with a pattern, and the same call of the Rust version: result and
/// final memory must agree.
fn commit(random: &mut Random, log: &[u8], work: usize, out: usize) -> (Result<(), Refusal>, Vec<u8>) {
    let mut work = random.bytes(work);
    let before = random.bytes(out);
    let (mut given, mut expected, mut other) = (before.clone(), before, work.clone());
    let result = viewer::commitment(log, &mut work, &mut given);
    let outcome = reference::commitment(log, &mut other, &mut expected);
    assert_eq!(result.err().map_or((0, 0), |refusal| (refusal.number, refusal.position)), (outcome.number, outcome.position));
    assert_eq!(given, expected);
    assert!(work.iter().all(|byte| *byte == 0), "the work area is not zero");
    (result, given)
}

fn refused(number: u64, position: u64) -> Result<(), Refusal> {
    Err(Refusal { number, position })
}

/// A sound log's commitment, with exactly enough memory, with more, and with too little.
fn every_size(random: &mut Random, records: &[Record]) {
    let log = write(records);
    let n = 128 * records.len();
    let (result, out) = commit(random, &log, n, 32);
    assert_eq!(result, Ok(()));
    let (more, longer) = commit(random, &log, n + 200, 40);
    assert_eq!(more, Ok(()));
    assert_eq!(longer[..32], out[..]);
    assert_eq!(commit(random, &log, n - 1, 32).0, refused(12, 0));
    assert_eq!(commit(random, &log, n - 1, 31).0, refused(12, 0));
    assert_eq!(commit(random, &log, n, 31).0, refused(13, 0));
}

#[test]
fn every_shape_of_tree() {
    let mut random = Random::new(32);
    every_size(&mut random, &log_k());
    for length in 1..=40 {
        for _ in 0..20 {
            let records = random::records_of_length(&mut random, length);
            every_size(&mut random, &records);
        }
        // as many leaves in the tree of entities, and in one entity's tree
        every_size(&mut random, &births(length));
        every_size(&mut random, &one_source(2 + length));
    }
}

/// The list of births has one of six lengths, by the bytes of the log: births up to each of them, and flows between the first and the last.
#[test]
fn every_length_of_the_list_of_births() {
    let mut random = Random::new(37);
    for length in [64, 256, 1_024, 4_096, 16_384] {
        for born in length - 1..=length + 1 {
            let (last, time) = (born as u32 - 1, born as u64);
            let flows = [flow(0, last, 1, time), flow(last, 0, 2, time + 1), flow(last / 2, last, 3, time + 2)];
            every_size(&mut random, &births(born));
            every_size(&mut random, &[&births(born)[..], &flows].concat());
        }
    }
}

#[test]
fn extreme_values() {
    let mut random = Random::new(33);
    every_size(&mut random, &[birth(0, 0)]);
    every_size(&mut random, &[birth(u32::MAX, u64::MAX)]);
    every_size(&mut random, &[birth(0, 0), birth(u32::MAX, 1), flow(u32::MAX, 0, 255, u64::MAX - 1), flow(0, u32::MAX, 0, u64::MAX)]);
}

#[test]
fn random_and_damaged_logs() {
    let mut random = Random::new(34);
    for _ in 0..3_000 {
        let records = random::sound_records(&mut random, 60);
        every_size(&mut random, &records);
        let fault = random::nearly_sound_log(&mut random, 60);
        let (work, out) = (random.index(9_000), random.index(50));
        assert_eq!(commit(&mut random, &fault.log, work, out).0, refused(fault.number, fault.position));
    }
}

#[test]
fn the_most_records() {
    let mut random = Random::new(35);
    let fault = random::overlong_log(&mut random);
    assert_eq!(commit(&mut random, &fault.log, 128 * 65_536, 32).0, refused(2, fault.position));
    let sound = &fault.log[..fault.position as usize];
    assert_eq!(commit(&mut random, sound, 128 * 65_535, 32).0, Ok(()));
    assert_eq!(commit(&mut random, sound, 128 * 65_535 - 1, 32).0, refused(12, 0));
    every_size(&mut random, &one_source(65_535));
    every_size(&mut random, &births(65_535));
}
