//! The exported log reader against the Rust version.

use reference::log::{write, Record};
use reference::random::{self, Random};
use reference::sample::{birth, births, flow, log_k};
use viewer::Refusal;

fn refused(number: u64, position: u64) -> Result<u64, Refusal> {
    Err(Refusal { number, position })
}

/// What the proved library says of a log, which the Rust version must say too.
fn read(log: &[u8]) -> Result<u64, Refusal> {
    let expected = reference::log(log);
    let given = viewer::log(log);
    match expected.number {
        0 => assert_eq!(given, Ok(expected.length)),
        number => assert_eq!(given, refused(number, expected.position)),
    }
    given
}

#[test]
fn rows_by_hand() {
    let k = log_k();
    let then = |more: &[Record]| write(&[&k[..], more].concat());
    assert_eq!(read(&write(&k)), Ok(4));
    assert_eq!(read(&[]), refused(1, 0));
    assert_eq!(read(&[0]), refused(3, 0));
    assert_eq!(read(&[&write(&k)[..], &[3]].concat()), refused(3, 62));
    assert_eq!(read(&write(&k)[..61]), refused(4, 44));
    assert_eq!(read(&write(&[birth(1, 10), birth(2, 10)])), refused(5, 13));
    assert_eq!(read(&write(&[birth(1, 0)])), Ok(1));
    assert_eq!(read(&write(&[birth(1, 0), birth(2, 0)])), refused(5, 13));
    assert_eq!(read(&then(&[birth(2, 50)])), refused(6, 62));
    assert_eq!(read(&then(&[birth(2, 40)])), refused(5, 62));
    assert_eq!(read(&write(&k[2..])), refused(7, 0));
    assert_eq!(read(&then(&[flow(3, 4, 7, 50)])), refused(7, 62));
    assert_eq!(read(&then(&[flow(1, 4, 7, 50)])), refused(8, 62));
    assert_eq!(read(&then(&[flow(3, 3, 7, 50)])), refused(7, 62));
    assert_eq!(read(&then(&[flow(1, 1, 7, 50)])), refused(9, 62));
    assert_eq!(read(&then(&[flow(1, 1, 7, 40)])), refused(5, 62));
    assert_eq!(read(&write(&[birth(u32::MAX, u64::MAX)])), Ok(1));
}

#[test]
fn random_and_damaged_logs() {
    let mut random = Random::new(21);
    let mut met = [0; 11];
    for _ in 0..30_000 {
        let mut log = random::sound_log(&mut random, 60);
        if !random.once_in(4) {
            random::damage_log(&mut random, &mut log);
        }
        met[read(&log).map_or_else(|refusal| refusal.number, |_| 0) as usize] += 1;
    }
    for _ in 0..20_000 {
        let fault = random::nearly_sound_log(&mut random, 60);
        assert_eq!(read(&fault.log), refused(fault.number, fault.position));
        met[fault.number as usize] += 1;
    }
    for (number, times) in met.iter().enumerate() {
        assert_eq!(*times > 0, number != 2 && number != 10, "row {number}: {times} times");
    }
}

/// The list of births has one of six lengths, by the bytes of the log. Births up to each of them, and then a record that takes the last place,
/// asks for the first and the last born, or is at fault.
#[test]
fn every_length_of_the_list_of_births() {
    for length in [64, 256, 1_024, 4_096, 16_384, 65_535] {
        for born in length - 2..=length + 1 {
            let log = births(born.min(65_534));
            let (count, last, time) = (log.len() as u64, log.len() as u32 - 1, log.len() as u64);
            let then = |record: Record| read(&write(&[&log[..], &[record]].concat()));
            assert_eq!(read(&write(&log)), Ok(count));
            for sound in [birth(last + 1, time), flow(0, last, 7, time), flow(last, 0, 7, time)] {
                assert_eq!(then(sound), Ok(count + 1));
            }
            assert_eq!(then(flow(0, last, 7, time - 1)), refused(5, 13 * count));
            assert_eq!(then(birth(last, time)), refused(6, 13 * count));
            assert_eq!(then(flow(last + 1, 0, 7, time)), refused(7, 13 * count));
            assert_eq!(then(flow(0, last + 1, 7, time)), refused(8, 13 * count));
        }
    }
}

#[test]
fn the_most_records() {
    let mut random = Random::new(22);
    for _ in 0..3 {
        let fault = random::overlong_log(&mut random);
        let sound = &fault.log[..fault.position as usize];
        assert_eq!(read(sound), Ok(65_535));
        assert_eq!(read(&fault.log[..sound.len() + 1]), refused(2, fault.position));
        assert_eq!(read(&fault.log), refused(2, fault.position));
    }
    assert_eq!(read(&write(&births(65_535))), Ok(65_535));
}
