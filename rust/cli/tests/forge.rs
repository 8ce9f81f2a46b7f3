//! Part two of the practical: false answers handed in, and what is said of them.

mod common;

use common::*;
use reference::random::Random;

/// Log K in a file, and what is said of an answer handed in for a question.
fn forge_for(name: &str, question: &[&str], answer: &[u8]) -> Ran {
    let folder = Folder::new(&format!("forge_{name}"));
    let log = folder.file("log", &Logged::k().log);
    run(&[&["mark", "--forge", &log][..], question, &[&folder.file("answer", answer)]].concat())
}

/// The same for 2 at 35, backward.
fn forge(name: &str, answer: &[u8]) -> Ran {
    forge_for(name, &["backward", "2", "35"], answer)
}

fn assert_not_passed(ran: &Ran, said: &str) {
    assert_eq!((ran.status, ran.text(), ran.err.as_str()), (1, format!("{said}\n").as_str(), ""));
}

#[test]
fn an_altered_answer_did_not_pass() {
    let mut answer = Logged::k().answer(1, 2, 35);
    answer[437] = 8;
    assert_not_passed(&forge("altered", &answer), "not passed: refused 24 at 424: its path digest differs from L");
    assert_not_passed(&forge("empty", b""), "not passed: refused 15 at 0: answer ends inside or before a string, trace header or record");
}

#[test]
fn the_true_answer_is_not_false() {
    assert_not_passed(&forge("true", &Logged::k().answer(1, 2, 35)), "not false: this is the true answer");
}

#[test]
fn the_true_answer_to_another_question_did_not_pass() {
    let said = "not passed: refused 16 at 393: letter not one due";
    assert_not_passed(&forge("other", &Logged::k().answer(2, 2, 35)), said);
}

/// In every direction the true answer is not false, and with its last byte altered it does not pass.
#[test]
fn all_six_directions_are_taken() {
    for direction in 0..6 {
        let word = direction.to_string();
        let truth = Logged::k().answer(direction, 2, 25);
        let said = |name: &str, answer: &[u8]| forge_for(&format!("{name}_{direction}"), &[&word, "2", "25"], answer);
        assert_not_passed(&said("six_true", &truth), "not false: this is the true answer");
        let mut altered = truth;
        *altered.last_mut().unwrap() ^= 1;
        let ran = said("six_altered", &altered);
        assert!(ran.status == 1 && ran.text().starts_with("not passed: refused "), "{direction}: {ran:?}");
    }
}

/// Direction 6: the true answer, a version left out at either end, the two exchanged, one twice, and the answer of a longer span.
#[test]
fn lists_are_taken() {
    let k = Logged::k();
    let truth = k.between(1, 10, 40);
    let (top, first, second) = (&truth[..316], &truth[316..393], &truth[393..]);
    let ended = "refused 15 at 393: answer ends inside or before a string, trace header or record";
    let other = |place: usize| format!("refused 17 at {place}: H of a proof string not the digest due");
    for (answer, said) in [
        ([top, first].concat(), ended.to_string()),
        ([top, second].concat(), other(316)),
        ([top, second, first].concat(), other(316)),
        ([top, first, first].concat(), other(393)),
        ([top, first, second, second].concat(), "refused 18 at 470: bytes after the end".to_string()),
    ] {
        assert_not_passed(&forge_for("list", &["between", "1", "10", "40"], &answer), &format!("not passed: {said}"));
    }
    assert_not_passed(&forge_for("list", &["6", "1", "10", "40"], &truth), "not false: this is the true answer");
    let said = "not passed: refused 18 at 393: bytes after the end";
    assert_not_passed(&forge_for("list", &["6", "1", "10", "39"], &truth), said);
}

/// The version on the other side of the time, and the end that the other relation has.
#[test]
fn the_other_relation_does_not_pass() {
    let k = Logged::k();
    for (asked, other, said) in [
        ((4, 2, 21), (1, 2, 21), "refused 17 at 316: H of a proof string not the digest due"),
        ((1, 2, 21), (4, 2, 21), "refused 17 at 316: H of a proof string not the digest due"),
        ((3, 2, 31), (0, 2, 31), "refused 18 at 219: bytes after the end"),
        ((0, 2, 31), (3, 2, 31), "refused 15 at 219: answer ends inside or before a string, trace header or record"),
    ] {
        let word = |asked: (u8, u32, u64)| [asked.0.to_string(), asked.1.to_string(), asked.2.to_string()];
        let [direction, entity, time] = word(asked);
        let ran = forge_for("relation", &[&direction, &entity, &time], &k.answer(other.0, other.1, other.2));
        assert_not_passed(&ran, &format!("not passed: {said}"));
    }
}

#[test]
fn no_altered_byte_passes() {
    let (good, mut random) = (Logged::k().answer(1, 2, 35), Random::new(3));
    for place in (0..good.len()).step_by(13) {
        let mut answer = good.clone();
        answer[place] ^= 1 + random.below(255) as u8;
        let ran = forge("byte", &answer);
        assert!(ran.status == 1 && ran.text().starts_with("not passed: refused "), "{place}: {ran:?}");
    }
}

#[test]
fn the_log_has_to_be_there_and_sound() {
    let folder = Folder::new("forge_log");
    let answer = folder.file("answer", b"");
    let cut = folder.file("cut", &Logged::k().log[..61]);
    let ran = run(&["mark", "--forge", &cut, "only", "1", "10", &answer]);
    assert_eq!((ran.status, ran.text()), (1, ""));
    assert!(ran.err.contains("cut: refused 4 at 44: record cut short"), "{}", ran.err);
    for (log, said) in [(folder.path("none"), "none: No such file"), ("-".to_string(), "standard input can be read only once")] {
        let ran = run(&["mark", "--forge", &log, "only", "1", "10", if log == "-" { "-" } else { &answer }]);
        assert_eq!((ran.status, ran.text()), (2, ""));
        assert!(ran.err.contains(said), "{}", ran.err);
    }
}

#[test]
fn another_order_of_the_words_is_told_the_right_one() {
    let ran = run(&["mark", "--forge", "answer", "log", "only", "1", "10"]);
    assert_eq!((ran.status, ran.text()), (2, ""));
    assert!(ran.err.ends_with("the words are LOG DIRECTION ENTITY TIME [UNTIL] ANSWER, in this order\n"), "{}", ran.err);
}

#[test]
fn all_five_words_have_to_be_given() {
    let ran = run(&["mark", "--forge", "a"]);
    assert_eq!(ran.status, 2);
    assert!(ran.err.contains("mark --forge takes 5 words, 1 were given"), "{}", ran.err);
}
