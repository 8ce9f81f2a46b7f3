//! Every byte and digest that the practical's handout prints is the Rust version's.

mod common;

use common::*;
use reference::graph::{incoming_digests, outgoing_digests, Graph};
use reference::hex::{from_hex, to_hex};
use reference::sample::log_k;
use reference::sha256::sha256;

const HANDOUT: &str = include_str!("../../../practical/HANDOUT.md");

/// The lines of the block with that name.
fn block(name: &str) -> Vec<&'static str> {
    let lines = HANDOUT.lines().skip_while(|line| *line != format!("```{name}")).skip(1);
    let lines: Vec<&str> = lines.take_while(|line| *line != "```").collect();
    assert!(!lines.is_empty(), "there is no block {name}");
    lines
}

/// The bytes of a table, whose lines begin with their place.
fn table(name: &str) -> Vec<u8> {
    table_from(name, 0)
}

/// The same of a table that begins at a place.
fn table_from(name: &str, start: usize) -> Vec<u8> {
    let mut all = Vec::new();
    for line in block(name) {
        let words: Vec<&str> = line.split_whitespace().collect();
        assert_eq!(words[0], (start + all.len()).to_string(), "{line}");
        assert!(words.len() > 2, "{line} says nothing");
        all.extend(from_hex(words[1]));
    }
    all
}

#[test]
fn the_log_and_the_answers() {
    let k = Logged::k();
    assert_eq!(table("log"), k.log);
    assert_eq!(table("answer"), k.answer(1, 2, 35));
    assert_eq!(block("commitment"), [k.hex()]);
    let forward = k.answer(2, 2, 20);
    assert_eq!(table("forward"), forward[k.answer(0, 2, 20).len()..]);
}

/// The trace after the proof that is printed above it, and the answer that is the one printed above.
#[test]
fn looking_ahead() {
    let k = Logged::k();
    let answer = table("answer");
    assert_eq!([&answer[..393], &table("ahead")].concat(), k.answer(5, 2, 21));
    assert_eq!(k.answer(4, 2, 21), answer);
}

/// The strings below the P that is printed above them.
#[test]
fn between_two_times() {
    let k = Logged::k();
    assert_eq!([&table("answer")[..162], &table_from("between", 162)].concat(), k.between(1, 10, 40));
}

/// Of each question in a block, which has that many words, the answer's length and what the check says; gives the directions.
fn questions(name: &str, words_of_one: usize) -> Vec<&'static str> {
    let k = Logged::k();
    let mut directions = Vec::new();
    for line in block(name) {
        let mut words = line.split_whitespace();
        let question: Vec<&str> = words.by_ref().take(words_of_one).collect();
        let answer = run_on(&k.log, &[&["answer", "-"], &question[..]].concat()).good();
        assert_eq!(words.next(), Some(answer.len().to_string().as_str()), "{line}");
        let said = String::from_utf8(run_on(&answer, &[&["check", &k.hex()], &question[..], &["-"]].concat()).good()).unwrap();
        // a list has a line a version
        let said = said.trim_end().replacen('\n', ": ", 1).replace('\n', ", ");
        assert!(said.ends_with(&format!(": {}", words.collect::<Vec<_>>().join(" "))), "{line}: {said}");
        directions.push(question[0]);
    }
    directions
}

#[test]
fn more_questions() {
    let directions = questions("questions", 3);
    assert!(["3", "4", "5"].iter().all(|direction| directions.contains(direction)), "{directions:?}");
}

#[test]
fn more_spans() {
    assert!(questions("spans", 4).iter().all(|direction| *direction == "6"));
}

#[test]
fn the_digests() {
    let versions = Graph::new(&log_k()).versions;
    let mut expected = Vec::new();
    for (name, digests) in [("incoming", incoming_digests(&versions)), ("outgoing", outgoing_digests(&versions))] {
        for (version, digest) in versions.iter().zip(digests) {
            expected.push(format!("{name} {} {} {}", version.name.entity, version.name.time, to_hex(&digest)));
        }
    }
    assert_eq!(block("digests"), expected);
    let line = |name: &str, version: &str| format!("{name} {version} {}", to_hex(&sha256(&table(name))));
    assert!(expected.contains(&line("incoming", "2 30")));
    assert!(expected.contains(&line("outgoing", "1 10")));
}

#[test]
fn the_text_and_the_commands() {
    let folder = Folder::new("handout");
    let records = HANDOUT.lines().filter(|line| line.starts_with("    birth") || line.starts_with("    flow"));
    let text = records.collect::<Vec<_>>().join("\n");
    assert_eq!(run_on(text.as_bytes(), &["log", "-", "-o", &folder.path("k.log")]).good(), b"");
    assert_eq!(folder.read("k.log"), table("log"));
    let answer = folder.file("k.answer", &table("answer"));
    assert_eq!(run(&["check", block("commitment")[0], "backward", "2", "35", &answer]).good(), b"accepted: 2 at 35, backward: found 2 at 30, 3 records\n");
}

#[test]
fn the_attempt_of_part_two() {
    let folder = Folder::new("handout_forge");
    let mut answer = table("answer");
    assert_eq!(answer[437], 7);
    answer[437] = 8;
    let (answer, log) = (folder.file("answer", &answer), folder.file("log", &table("log")));
    let ran = run(&["mark", "--forge", &log, "backward", "2", "35", &answer]);
    assert_eq!((ran.status, ran.text().lines().collect::<Vec<_>>()), (1, block("forge")));
}
