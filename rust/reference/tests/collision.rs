//! False answers that pass under a weak hash, and the two strings of one hash that each of them shows.

use reference::check::check_by;
use reference::collision::{building, checking, find, Collision};
use reference::forge::{pieces, Pieces};
use reference::graph::Name;
use reference::hash::Keeping;
use reference::host::Host;
use reference::random::Random;
use reference::sample::log_k;
use reference::sha256::{sha256, Digest};
use reference::{Question, Verdict, WORK};

/// 12 bits of SHA-256: a changed string has its old hash once in 4,096 times.
fn weak(string: &[u8]) -> Digest {
    let mut digest = [0; 32];
    digest[..2].copy_from_slice(&sha256(string)[..2]);
    digest[1] &= 0xf0;
    digest
}

fn keeping() -> Keeping {
    Keeping::new(weak)
}

fn accepted(question: &Question, commitment: &Digest, answer: &[u8]) -> bool {
    check_by(&mut keeping(), question, commitment, answer, 4 * WORK).is_ok()
}

/// The answer with one to three of its bytes changed, each to any value.
fn changed(random: &mut Random, answer: &[u8]) -> Vec<u8> {
    let mut changed = answer.to_vec();
    for _ in 0..1 + random.index(3) {
        changed[random.index(answer.len())] = random.byte();
    }
    changed
}

/// Each with the letters of the strings hashed in its check.
const QUESTIONS: [(Question, &str); 10] = [
    (Question::new(1, 2, 35), "GIIILNPR"),
    (Question::new(2, 1, 39), "GLNOOOPR"),
    (Question::new(0, 2, 20), "GLNPR"),
    (Question::new(4, 2, 21), "GIIILNPR"),
    (Question::new(5, 2, 21), "GLNOOPR"),
    (Question::new(3, 1, 11), "GLNPR"),
    (Question::new(3, 2, 31), "GPR"),
    (Question::between(1, 10, 40), "GLLNPR"),
    (Question::between(2, 21, 30), "GLNPR"),
    (Question::between(2, 21, 29), "GNPR"),
];

#[test]
fn every_false_answer_that_passes_shows_a_collision() {
    let (mut random, records) = (Random::new(12), log_k());
    let (commitment, built) = building(weak, &records);
    let host = Host::by(&mut keeping(), &records);
    let mut passed = 0;
    for (question, _) in QUESTIONS {
        let (before, defined) = (passed, host.answer_by(&mut keeping(), &question));
        assert!(accepted(&question, &commitment, &defined));
        assert_eq!(find(weak, &records, &question, &defined), None);
        for _ in 0..300_000 {
            let answer = changed(&mut random, &defined);
            if answer != defined && accepted(&question, &commitment, &answer) {
                passed += 1;
                let collision = find(weak, &records, &question, &answer).expect("a collision");
                assert!(collision.built != collision.checked && weak(&collision.built) == weak(&collision.checked));
                assert!(built.contains(&collision.built));
                assert!(checking(weak, &question, &commitment, &answer).contains(&collision.checked));
            }
        }
        assert!(passed - before > 10, "{question:?}: {}", passed - before);
    }
}

/// A host that leaves a version out has to say in N that it lies off the span, and to find an N of the same hash.
#[test]
fn a_version_left_out_shows_a_collision() {
    let (records, question) = (log_k(), Question::between(1, 10, 40));
    let (commitment, _) = building(weak, &records);
    let host = Host::by(&mut keeping(), &records);
    let Pieces { strings, .. } = pieces(&host.answer_by(&mut keeping(), &question));
    let [r, p, g, n, first, _second] = &strings[..] else { panic!("six strings") };
    let off = |key: u64| [&n[..49], &key.to_be_bytes(), &key.to_be_bytes(), &n[65..]].concat();
    let planted = (41..).map(off).find(|other| weak(other) == weak(n)).expect("such an N");
    let answer = [r, p, g, &planted, first].map(|string| &string[..]).concat();
    let given = check_by(&mut keeping(), &question, &commitment, &answer, 0).expect("accepted").verdict;
    assert_eq!(given, Verdict::Listed(vec![Name { entity: 1, time: 10 }]));
    let collision = find(weak, &records, &question, &answer);
    assert_eq!(collision, Some(Collision { built: n.clone(), checked: planted }));
}

#[test]
fn what_is_hashed_in_building_and_checking_log_k() {
    let records = log_k();
    let (commitment, built) = building(sha256, &records);
    let host = Host::new(&records);
    assert_eq!(commitment, host.commitment());
    let letters = |strings: &[Vec<u8>]| {
        let mut letters: Vec<u8> = strings.iter().map(|string| string[0]).collect();
        letters.sort();
        String::from_utf8(letters).expect("letters")
    };
    // four versions and two entities: 4 I, 4 O, 4 L, a N for each entity, 2 G, a P and R
    assert_eq!(letters(&built), "GGIIIILLLLNNOOOOPR");
    for (question, expected) in QUESTIONS {
        let strings = checking(sha256, &question, &commitment, &host.answer(&question));
        assert_eq!(letters(&strings), expected);
        assert!(strings.iter().all(|string| built.contains(string)));
    }
}

#[test]
fn under_sha256_no_collision_is_found() {
    let (mut random, records) = (Random::new(13), log_k());
    let host = Host::new(&records);
    for (question, _) in QUESTIONS {
        let defined = host.answer(&question);
        for _ in 0..200 {
            assert_eq!(find(sha256, &records, &question, &changed(&mut random, &defined)), None);
        }
    }
}
