//! Every row of the table with its position, and the order of the rows.

mod common;

use common::*;
use reference::forge::{d, e, s, t, trace, v};
use reference::random::{log_with_fault, nearly_sound_log, sound_log, sound_records, Random};
use reference::{Outcome, Question, Written};

fn log_at(log: &[u8], number: u64, position: u64) {
    assert_eq!(reference::log(log), Written { number, position, length: 0 });
}

#[test]
fn log_rows() {
    let k = log_k();
    log_at(&[], 1, 0);
    log_at(&[k.clone(), vec![3]].concat(), 3, 62);
    log_at(&[0], 3, 0);
    log_at(&k[..61], 4, 44);
    log_at(&k[..14], 4, 13);
    log_at(&[1], 4, 0);
    log_at(&[birth(1, 10), birth(2, 10)].concat(), 5, 13);
    log_at(&[birth(1, 10), birth(1, 11)].concat(), 6, 13);
    log_at(&[birth(2, 10), birth(1, 11)].concat(), 6, 13);
    log_at(&[k.clone(), flow(3, 1, 7, 50)].concat(), 7, 62);
    log_at(&[k.clone(), flow(1, 3, 7, 50)].concat(), 8, 62);
    log_at(&[k.clone(), flow(1, 1, 7, 50)].concat(), 9, 62);
}

#[test]
fn log_row_order() {
    let k = log_k();
    // Unknown command before cut short, cut short before all that reads operands.
    log_at(&[birth(1, 10), vec![7]].concat(), 3, 13);
    log_at(&[birth(1, 10), birth(1, 10)[..12].to_vec()].concat(), 4, 13);
    // 5 before 6 to 9; 7 before 8 and 9; 8 before 9.
    log_at(&[birth(1, 10), birth(1, 10)].concat(), 5, 13);
    log_at(&[k.clone(), flow(9, 9, 0, 40)].concat(), 5, 62);
    log_at(&[k.clone(), flow(9, 9, 0, 41)].concat(), 7, 62);
    log_at(&[k.clone(), flow(9, 8, 0, 41)].concat(), 7, 62);
    // An earlier record's fault wins.
    log_at(&[birth(1, 10), birth(1, 11), vec![9]].concat(), 6, 13);
    // An entity is unborn until its own birth.
    log_at(&[birth(1, 10), flow(1, 2, 0, 11), birth(2, 12)].concat(), 8, 13);
}

#[test]
fn least_and_greatest_values_are_sound() {
    let log = [birth(0, 0), birth(u32::MAX, 1), flow(u32::MAX, 0, 0, u64::MAX)].concat();
    assert_eq!(reference::log(&log), Written { number: 0, position: 0, length: 3 });
    log_at(&[log.clone(), flow(0, u32::MAX, 0, u64::MAX)].concat(), 5, 44);
    log_at(&[birth(u32::MAX, 0), birth(0, 1)].concat(), 6, 13);
}

#[test]
fn generated_faults() {
    let mut random = Random::new(3);
    let mut seen = [0; 25];
    for _ in 0..20_000 {
        let fault = nearly_sound_log(&mut random, 12);
        log_at(&fault.log, fault.number, fault.position);
        seen[fault.number as usize] += 1;
    }
    for number in [1, 3, 4, 5, 6, 7, 8, 9] {
        assert!(seen[number] > 500, "row {number} seen {} times", seen[number]);
    }
    for _ in 0..2_000 {
        let log = sound_log(&mut random, 20);
        assert_eq!(reference::log(&log).number, 0);
    }
    let records = sound_records(&mut random, 12);
    assert!((0..20).any(|_| log_with_fault(&mut random, &records, 4).is_some()));
}

/// 25 before the log.
#[test]
fn answer_25() {
    let k = log_k();
    let out = |number| Written { number, position: 0, length: 0 };
    for (from, until) in [(1, 0), (41, 40), (u64::MAX, 0), (u64::MAX, u64::MAX - 1)] {
        assert_eq!(answer_with(between(1, from, until), &[], 0, 0).0, out(25));
        assert_eq!(answer_with(between(1, from, until), &k, ROOM, 900).0, out(25));
        assert_eq!(answer_with(between(9, from, until), &k, ROOM, 900).0, out(25));
    }
    assert_eq!(answer_with(between(1, 10, 10), &[], 0, 0).0, out(1));
    assert_eq!(answer_with(between(1, 10, 10), &k, 511, 0).0, out(12));
}

#[test]
fn commitment_and_answer_rows() {
    let k = log_k();
    let out = |number| Written { number, position: 0, length: 0 };
    // 11 before the log, the log before 12, 12 before 13.
    for direction in 7..=255 {
        assert_eq!(answer_with(ask(direction, 1, 10), &[], 0, 0).0, out(11));
        assert_eq!(answer_with(ask(direction, 1, 10), &k, ROOM, 900).0, out(11));
    }
    assert_eq!(answer_with(ask(0, 1, 10), &[], 0, 0).0, out(1));
    assert_eq!(answer_with(ask(0, 1, 10), &k, 511, 0).0, out(12));
    assert_eq!(commit_with(&k, 511, 0).0, Outcome { number: 12, position: 0 });
    assert_eq!(commit_with(&k, 512, 31).0, Outcome { number: 13, position: 0 });
    assert_eq!(commit_with(&k, 512, 32).0, Outcome { number: 0, position: 0 });
    for (q, length) in [
        (ask(1, 2, 35), 446),
        (ask(2, 1, 39), 451),
        (ask(0, 2, 19), 219),
        (ask(0, 3, 0), 65),
        (ask(3, 2, 21), 393),
        (ask(4, 2, 21), 446),
        (ask(5, 2, 21), 429),
        (ask(3, 2, 31), 219),
        (between(1, 10, 40), 470),
        (between(2, 31, 99), 219),
        (between(3, 0, 0), 65),
    ] {
        assert_eq!(answer_with(q, &k, 512, length - 1).0, out(13));
        let written = answer_with(q, &k, 512, length).0;
        assert_eq!(written, Written { number: 0, position: 0, length: length as u64 });
    }
}

/// The proof of K's answer for 2 at 35 has 393 bytes: R 0, P 65, G 162, N 219, L 316.
const PROOF: usize = 393;

/// Two questions, by either relation, that find one version, and the proof that they share.
struct Case {
    questions: [Question; 2],
    commitment: Vec<u8>,
    proof: Vec<u8>,
}

fn case(questions: [Question; 2]) -> Case {
    let [proof, other] = questions.map(|q| answer(q, &log_k())[..PROOF].to_vec());
    assert_eq!(proof, other);
    Case { questions, commitment: commit(&log_k()), proof }
}

/// The version is 2 at 30.
fn backward() -> Case {
    case([ask(1, 2, 35), ask(4, 2, 21)])
}

/// The version is 2 at 20.
fn forward() -> Case {
    case([ask(2, 2, 20), ask(5, 2, 0)])
}

fn version_only() -> Case {
    case([ask(0, 2, 35), ask(3, 2, 21)])
}

impl Case {
    /// The check of any answer to both questions.
    fn answered(&self, bytes: &[u8]) -> reference::Checked {
        let [checked, other] = self.questions.map(|q| {
            let checked = check(q, &self.commitment, bytes);
            assert!(checked.number == 0 || records(q, &self.commitment, bytes).length == 0);
            checked
        });
        assert_eq!(checked, other);
        checked
    }

    /// The same, of the proof and a tail.
    fn with(&self, tail: &[u8]) -> reference::Checked {
        self.answered(&[&self.proof[..], tail].concat())
    }
}

#[test]
fn check_11_and_14() {
    let case = backward();
    for direction in 7..=255 {
        assert_eq!(check_with(ask(direction, 2, 35), &[], &[], 0), refused(11, 0));
        assert_eq!(check(ask(direction, 2, 35), &case.commitment, &case.proof), refused(11, 0));
    }
    for length in (0..70).filter(|&length| length != 32) {
        let commitment = vec![0; length];
        for direction in 0..6 {
            assert_eq!(check_with(ask(direction, 2, 35), &commitment, &[], 0), refused(14, 0));
            assert_eq!(check(ask(direction, 2, 35), &commitment, &case.proof), refused(14, 0));
        }
        assert_eq!(check_with(between(2, 35, 35), &commitment, &[], 0), refused(14, 0));
    }
    assert_eq!(check(ask(0, 2, 35), &[0; 32], &case.proof), refused(17, 0));
}

/// 25 before 14, and only where the first time is above the second.
#[test]
fn check_25() {
    let case = backward();
    for (from, until) in [(35, 34), (1, 0), (u64::MAX, 0), (u64::MAX, u64::MAX - 1)] {
        assert_eq!(check_with(between(2, from, until), &[], &[], 0), refused(25, 0));
        assert_eq!(check(between(2, from, until), &case.commitment, &case.proof), refused(25, 0));
        assert_eq!(records(between(2, from, until), &case.commitment, &case.proof).length, 0);
    }
    for (from, until) in [(0, 0), (0, 1), (35, 35), (u64::MAX, u64::MAX)] {
        assert_eq!(check_with(between(2, from, until), &[], &[], 0), refused(14, 0));
    }
}

/// Outside direction 6 the later time and the output have no effect.
#[test]
fn until_outside_direction_6() {
    let k = log_k();
    for direction in 0..6 {
        let q = ask(direction, 2, 25);
        let good = answer(q, &k);
        let checked = check(q, &commit(&k), &good);
        assert_eq!(checked.verdict, 3);
        for until in [0, 24, 25, 26, u64::MAX] {
            let other = Question { until, ..q };
            assert_eq!(answer(other, &k), good);
            for out in [0, 11, 12, 100] {
                assert_eq!(list_with(other, &commit(&k), &good, ROOM, out), (checked, vec![]));
            }
            assert_eq!(records(other, &commit(&k), &good), records(q, &commit(&k), &good));
        }
    }
}

/// 1 between 10 and 40, which opens R 0, P 65, G 162, N 219, L 316, L 393, and has 470 bytes.
const SPAN: Question = Question::between(1, 10, 40);

/// The check of bytes as an answer to it meets a row before 13, whatever the output.
fn span_meets(bytes: &[u8], number: u64, position: usize) {
    for out in [0, 23, 24, 100] {
        assert_eq!(list_with(SPAN, &commit(&log_k()), bytes, 0, out).0, refused(number, position));
    }
}

#[test]
fn strings_of_a_span() {
    let good = answer(SPAN, &log_k());
    for pair in [0usize, 65, 162, 219, 316, 393, 470].windows(2) {
        for place in pair[0]..pair[1] {
            let mut bytes = good.clone();
            bytes[place] ^= 0x20;
            span_meets(&bytes, if place == pair[0] { 16 } else { 17 }, pair[0]);
            span_meets(&good[..place], 15, pair[0]);
            let mut cut = good[..place + 1].to_vec();
            cut[pair[0]] = b'Q';
            span_meets(&cut, 16, pair[0]);
        }
    }
    // A version left out, the two exchanged, one twice, a trace.
    let (top, first, second) = (&good[..316], &good[316..393], &good[393..]);
    span_meets(&[top, first].concat(), 15, 393);
    span_meets(&[top, second].concat(), 17, 316);
    span_meets(&[top, second, first].concat(), 17, 316);
    span_meets(&[top, first, first].concat(), 17, 393);
    span_meets(&[top, first, b"B"].concat(), 16, 393);
    span_meets(&[top, first, b"N"].concat(), 16, 393);
}

/// 18 before 13, which is last of all. No entity and an empty list need no output.
#[test]
fn output_of_a_span() {
    let (good, commitment) = (answer(SPAN, &log_k()), commit(&log_k()));
    span_meets(&[&good[..], &[0]].concat(), 18, 470);
    span_meets(&[&good[..], &good[393..]].concat(), 18, 470);
    for out in 0..24 {
        assert_eq!(list_with(SPAN, &commitment, &good, 0, out).0, refused(13, 0));
    }
    assert_eq!(list_with(SPAN, &commitment, &good, 0, 24), (accepted(5, 0, 2), [entry(1, 10), entry(1, 40)].concat()));
    assert_eq!(list_with(between(3, 0, 9), &commitment, &good[..65], 0, 0).0, accepted(1, 0, 0));
    assert_eq!(list_with(between(1, 41, 99), &commitment, &good[..219], 0, 0).0, accepted(5, 0, 0));
    assert_eq!(list_with(between(1, 41, 99), &commitment, &good, 0, 0).0, refused(18, 219));
}

/// The answer of a part of the span is not the span's, nor the other way round.
#[test]
fn parts_of_a_span() {
    let (good, commitment) = (answer(SPAN, &log_k()), commit(&log_k()));
    for (part, as_whole, whole_as_part) in [
        (between(1, 10, 39), refused(15, 393), refused(18, 393)),
        (between(1, 11, 40), refused(17, 316), refused(17, 316)),
        (between(1, 11, 39), refused(15, 316), refused(18, 316)),
    ] {
        assert_eq!(check(SPAN, &commitment, &answer(part, &log_k())), as_whole);
        assert_eq!(check(part, &commitment, &good), whole_as_part);
    }
}

#[test]
fn proof_strings() {
    let case = version_only();
    let starts = [0usize, 65, 162, 219, 316, 393];
    for pair in starts.windows(2) {
        for place in pair[0]..pair[1] {
            // Altered: 16 at the letter, else 17; both at the string.
            let mut bytes = case.proof.clone();
            bytes[place] ^= 0x20;
            let number = if place == pair[0] { 16 } else { 17 };
            assert_eq!(case.answered(&bytes), refused(number, pair[0]));
            // Cut: 15 at the string; a wrong letter wins over a cut string.
            assert_eq!(case.answered(&case.proof[..place]), refused(15, pair[0]));
            let mut cut = case.proof[..place + 1].to_vec();
            cut[pair[0]] = b'Q';
            assert_eq!(case.answered(&cut), refused(16, pair[0]));
        }
    }
    assert_eq!(case.with(b"B"), refused(18, PROOF));
    for (direction, entity, time, length) in [(1, 3, 0, 65), (2, 2, 19, 219), (4, 3, 0, 65), (5, 2, 31, 219)] {
        let q = ask(direction, entity, time);
        assert_eq!(check(q, &case.commitment, &[answer(q, &log_k()), vec![0]].concat()), refused(18, length));
    }
}

#[test]
fn trace_header() {
    let case = backward();
    assert_eq!(case.with(&[]), refused(15, PROOF));
    assert_eq!(case.with(b"F"), refused(16, PROOF));
    assert_eq!(case.with(b"E"), refused(16, PROOF));
    assert_eq!(case.with(&[b'B', 0, 0, 0]), refused(15, PROOF));
    assert_eq!(case.with(&[b'B', 0, 0, 0, 0]), refused(19, PROOF));
    assert_eq!(case.with(&[b'B', 0, 1, 0, 0]), refused(19, PROOF));
    assert_eq!(case.with(&[b'B', 0xff, 0xff, 0xff, 0xff]), refused(19, PROOF));
    // 19 before 12, 12 before the records.
    for q in case.questions {
        let bytes = [&case.proof[..], &[b'B', 0, 0, 0xff, 0xff]].concat();
        assert_eq!(check_with(q, &case.commitment, &bytes, 65_535 * 128 - 1), refused(12, 0));
        assert_eq!(check_with(q, &case.commitment, &bytes, 65_535 * 128), refused(15, PROOF + 5));
        let bytes = [&case.proof[..], &[b'B', 0, 1, 0, 0]].concat();
        assert_eq!(check_with(q, &case.commitment, &bytes, 0), refused(19, PROOF));
    }
    assert_eq!(forward().with(b"B"), refused(16, PROOF));
}

#[test]
fn backward_records() {
    let case = backward();
    let first = PROOF + 5;
    let good = trace(b'B', &[e(1, 10), e(2, 20), v(2, 30, 7, 1, 0)]);
    assert_eq!(case.with(&good), accepted(3, 30, 3));
    // 15 at the record that is cut, or that is missing.
    for cut in 5..good.len() {
        let start = [0, 13, 26].into_iter().rev().find(|start| cut - 5 >= *start).unwrap();
        assert_eq!(case.with(&good[..cut]), refused(15, first + start));
    }
    // 16: letters of the other direction, also on a cut record.
    for letter in (0..=255).filter(|letter| !b"EV".contains(letter)) {
        assert_eq!(case.with(&[b'B', 0, 0, 0, 1, letter]), refused(16, first));
    }
    assert_eq!(case.with(&trace(b'B', &[e(1, 10), t(2, 20, 0)])), refused(16, first + 13));
    // 20: a V first, either position, the record's own position; before 21.
    assert_eq!(case.with(&trace(b'B', &[v(2, 30, 7, 0, 0)])), refused(20, first));
    assert_eq!(case.with(&trace(b'B', &[e(1, 10), v(2, 30, 7, 0, 1)])), refused(20, first + 13));
    assert_eq!(case.with(&trace(b'B', &[e(1, 10), v(2, 30, 7, 1, 0)])), refused(20, first + 13));
    assert_eq!(case.with(&trace(b'B', &[e(1, 10), v(2, 30, 7, 0, u32::MAX)])), refused(20, first + 13));
    assert_eq!(case.with(&trace(b'B', &[e(1, 10), v(2, 10, 7, 1, 0)])), refused(20, first + 13));
    // 21: equal and lower time; before the next record's rows.
    assert_eq!(case.with(&trace(b'B', &[e(1, 10), e(2, 10)])), refused(21, first + 13));
    assert_eq!(case.with(&trace(b'B', &[e(1, 10), e(2, 9), vec![b'X']])), refused(21, first + 13));
    // A first record may have time 0.
    assert_eq!(case.with(&trace(b'B', &[e(1, 0), e(2, 0)])), refused(21, first + 13));
}

#[test]
fn backward_ends() {
    let case = backward();
    let first = PROOF + 5;
    let good = trace(b'B', &[e(1, 10), e(2, 20), v(2, 30, 7, 1, 0)]);
    assert_eq!(case.with(&[good.clone(), vec![0]].concat()), refused(18, PROOF + good.len()));
    // 18 before 22, 23 and 24.
    let idle = trace(b'B', &[e(1, 10), e(2, 20), e(3, 25), v(2, 30, 7, 1, 0)]);
    assert_eq!(case.with(&[idle.clone(), vec![0]].concat()), refused(18, PROOF + idle.len()));
    // An idle record with a true digest.
    assert_eq!(case.with(&idle), refused(22, first + 26));
    // The lowest of two; a record that only an idle record refers to is referred to.
    let two = trace(b'B', &[e(0, 1), e(1, 10), e(2, 20), e(3, 25), v(2, 30, 7, 2, 1)]);
    assert_eq!(case.with(&two), refused(22, first));
    let chain = trace(b'B', &[e(9, 1), e(1, 10), e(2, 20), v(9, 25, 7, 0, 1), v(2, 30, 7, 2, 1)]);
    assert_eq!(case.with(&chain), refused(22, first + 39));
    // 22 before 23 before 24.
    assert_eq!(case.with(&trace(b'B', &[e(1, 10), e(2, 20)])), refused(22, first));
    assert_eq!(case.with(&trace(b'B', &[e(2, 20)])), refused(23, first));
    assert_eq!(case.with(&trace(b'B', &[e(1, 30)])), refused(23, first));
    assert_eq!(case.with(&trace(b'B', &[e(2, 31)])), refused(23, first));
    assert_eq!(case.with(&trace(b'B', &[e(2, 30)])), refused(24, first));
    let wrong = trace(b'B', &[e(1, 10), e(2, 20), v(2, 30, 8, 1, 0)]);
    assert_eq!(case.with(&wrong), refused(24, first + 26));
    let wrong = trace(b'B', &[e(1, 11), e(2, 20), v(2, 30, 7, 1, 0)]);
    assert_eq!(case.with(&wrong), refused(24, first + 26));
    let swapped = trace(b'B', &[e(1, 10), e(2, 20), v(2, 30, 7, 0, 1)]);
    assert_eq!(case.with(&swapped), refused(24, first + 26));
}

#[test]
fn forward_records() {
    let case = forward();
    let first = PROOF + 5;
    let good = trace(b'F', &[s(2, 20), t(2, 30, 0), d(1, 40, 8, 1)]);
    assert_eq!(case.with(&good), accepted(3, 20, 3));
    for cut in 5..good.len() {
        let start = [0, 13, 30].into_iter().rev().find(|start| cut - 5 >= *start).unwrap();
        assert_eq!(case.with(&good[..cut]), refused(15, first + start));
    }
    // Only S first, and S only first.
    for letter in (0..=255).filter(|letter| *letter != b'S') {
        assert_eq!(case.with(&[b'F', 0, 0, 0, 1, letter]), refused(16, first));
    }
    for letter in (0..=255).filter(|letter| !b"TDV".contains(letter)) {
        assert_eq!(case.with(&trace(b'F', &[s(2, 20), vec![letter]])), refused(16, first + 13));
    }
    assert_eq!(case.with(&trace(b'F', &[s(2, 20), t(2, 30, 1)])), refused(20, first + 13));
    assert_eq!(case.with(&trace(b'F', &[s(2, 20), d(2, 30, 0, 1)])), refused(20, first + 13));
    assert_eq!(case.with(&trace(b'F', &[s(2, 20), v(2, 30, 0, 0, 1)])), refused(20, first + 13));
    assert_eq!(case.with(&trace(b'F', &[s(2, 20), v(2, 30, 0, 1, 0)])), refused(20, first + 13));
    assert_eq!(case.with(&trace(b'F', &[s(2, 20), t(2, 20, 0)])), refused(21, first + 13));
    assert_eq!(case.with(&[good.clone(), vec![0]].concat()), refused(18, PROOF + good.len()));
    // 23 and 24 at the first record.
    assert_eq!(case.with(&trace(b'F', &[s(1, 20), t(2, 30, 0)])), refused(23, first));
    assert_eq!(case.with(&trace(b'F', &[s(2, 21), t(2, 30, 0)])), refused(23, first));
    assert_eq!(case.with(&trace(b'F', &[s(2, 20), t(2, 30, 0)])), refused(24, first));
    assert_eq!(case.with(&trace(b'F', &[s(2, 20), t(2, 30, 0), d(1, 40, 9, 1)])), refused(24, first));
    assert_eq!(case.with(&trace(b'F', &[s(2, 20), t(2, 30, 0), v(1, 40, 8, 0, 1)])), refused(24, first));
    let more = trace(b'F', &[s(2, 20), t(2, 30, 0), d(1, 40, 8, 1), d(1, 41, 8, 1)]);
    assert_eq!(case.with(&more), refused(24, first));
}
