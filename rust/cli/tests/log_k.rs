//! Log K through every command, beside the Rust version.

mod common;

use common::*;

const TEXT: &str = "birth 1 10\nbirth 2 20\nflow 1 2 7 30\nflow 2 1 8 40\n";
const LISTING: &str = "1 10 birth\n2 20 birth\n2 30 flow 7 from 1 10\n1 40 flow 8 from 2 30\n";
const BACKWARD: &str = "found 2 at 30, 3 records\n\
    0: 1 at 10, birth\n\
    1: 2 at 20, birth\n\
    2: 2 at 30, temporal edge from 2 at 20, dependency edge of kind 7 from 1 at 10, found\n";
const AHEAD: &str = "found 2 at 30, 2 records\n\
    0: 2 at 30, found\n\
    1: 1 at 40, dependency edge of kind 8 from 2 at 30\n";
const FORWARD: &str = "found 2 at 20, 3 records\n\
    0: 2 at 20, found\n\
    1: 2 at 30, temporal edge from 2 at 20\n\
    2: 1 at 40, dependency edge of kind 8 from 2 at 30\n";

const LIST: &str = "listed 2 versions\n1 at 10\n1 at 40\n";

#[test]
fn log_and_back() {
    let folder = Folder::new("log_and_back");
    let text = folder.file("k.txt", format!("# Log K\n\n{TEXT}").as_bytes());
    let k = Logged::k();
    assert_eq!(run(&["log", &text]).good(), k.log);
    assert_eq!(run_on(TEXT.as_bytes(), &["log", "-", "-o", &folder.path("k")]).good(), b"");
    assert_eq!(folder.read("k"), k.log);
    assert_eq!(run(&["log", "--text", &folder.path("k")]).good(), TEXT.as_bytes());
    assert_eq!(run_on(&k.log, &["log", "-o", &folder.path("back"), "--text", "-"]).good(), b"");
    assert_eq!(folder.read("back"), TEXT.as_bytes());
}

#[test]
fn list() {
    let folder = Folder::new("list");
    let k = Logged::k();
    assert_eq!(run(&["list", &folder.file("k", &k.log)]).good(), LISTING.as_bytes());
    assert_eq!(run_on(&k.log, &["list", "-"]).good(), LISTING.as_bytes());
}

#[test]
fn commit() {
    let folder = Folder::new("commit");
    let k = Logged::k();
    let log = folder.file("k", &k.log);
    assert_eq!(run(&["commit", &log]).good(), format!("{}\n", k.hex()).as_bytes());
    assert_eq!(run(&["commit", "--raw", &log]).good(), k.commitment);
    assert_eq!(run_on(&k.log, &["commit", "-", "--raw", "-o", &folder.path("c")]).good(), b"");
    assert_eq!(folder.read("c"), k.commitment);
}

/// Every starred question, and some that look ahead: their words, the answer's length and the verdict.
const ASKED: [(&str, u8, u32, u64, usize, &str); 13] = [
    ("backward", 1, 2, 35, 446, "found 2 at 30, 3 records\n"),
    ("forward", 2, 1, 39, 451, "found 1 at 10, 3 records\n"),
    ("forward", 2, 2, 20, 446, "found 2 at 20, 3 records\n"),
    ("only", 0, 2, 35, 393, "found 2 at 30\n"),
    ("backward", 1, 2, 19, 219, "not yet: the first version of 2 is at 20\n"),
    ("only", 0, 3, 99, 65, "no entity\n"),
    ("forward", 2, 0, 0, 65, "no entity\n"),
    ("backward-after", 4, 2, 21, 446, "found 2 at 30, 3 records\n"),
    ("forward-after", 5, 2, 20, 446, "found 2 at 20, 3 records\n"),
    ("forward-after", 5, 1, 11, 411, "found 1 at 40, 1 record\n"),
    ("only-after", 3, 1, 0, 393, "found 1 at 10\n"),
    ("backward-after", 4, 2, 31, 219, "none so late: the last version of 2 is at 30\n"),
    ("only-after", 3, 3, 0, 65, "no entity\n"),
];

/// What `check` says of a true answer.
fn accepted(direction: &str, entity: u32, time: u64, verdict: &str) -> String {
    let (way, relation) = direction.strip_suffix("-after").map_or((direction, "at"), |way| (way, "at or after"));
    let part = if way == "only" { "version only" } else { way };
    format!("accepted: {entity} {relation} {time}, {part}: {verdict}")
}

/// `ask` says what `commit`, `check` and `show` do.
#[test]
fn ask() {
    let k = Logged::k();
    for (name, _, entity, time, _, verdict) in ASKED {
        let told = run_on(&k.log, &["ask", "-", name, &entity.to_string(), &time.to_string()]).good();
        let told = String::from_utf8(told).unwrap();
        let rest = told.strip_prefix(&format!("commitment {}\n{}", k.hex(), accepted(name, entity, time, verdict))).expect("commitment and verdict");
        let versions = verdict.split_once(", ").and_then(|(_, rest)| rest.split(' ').next()?.parse().ok());
        assert_eq!(rest.lines().count(), versions.unwrap_or(0), "{told}");
    }
    let told = String::from_utf8(run_on(&k.log, &["ask", "-", "backward", "2", "35"]).good()).unwrap();
    assert!(told.ends_with(BACKWARD.split_once('\n').unwrap().1), "{told}");
    let refused = run_on(b"x", &["ask", "-", "backward", "2", "35"]);
    assert_eq!((refused.status, refused.text()), (1, ""));
    assert!(refused.err.contains("refused 3 at 0"), "{}", refused.err);
}

#[test]
fn answer_and_check() {
    let folder = Folder::new("answer_and_check");
    let k = Logged::k();
    let log = folder.file("k", &k.log);
    for (name, direction, entity, time, length, verdict) in ASKED {
        let (digit, entity_word, time_word) = (direction.to_string(), entity.to_string(), time.to_string());
        let answer = run(&["answer", &log, name, &entity_word, &time_word]).good();
        assert_eq!(answer.len(), length);
        assert_eq!(answer, k.answer(direction, entity, time));
        assert_eq!(run_on(&k.log, &["answer", "-", &digit, &entity_word, &time_word, "-o", &folder.path("a")]).good(), b"");
        assert_eq!(folder.read("a"), answer);
        for word in [name, &digit] {
            let checked = run(&["check", &k.hex(), word, &entity_word, &time_word, &folder.path("a")]).good();
            assert_eq!(String::from_utf8(checked).unwrap(), accepted(name, entity, time, verdict));
        }
    }
}

#[test]
fn a_commitment_is_hex_or_raw_or_standard_input() {
    let folder = Folder::new("commitments");
    let k = Logged::k();
    let answer = folder.file("answer", &k.answer(1, 2, 35));
    let line = format!("  {}\n", k.hex().to_uppercase());
    let check = |input: &[u8], word: &str| run_on(input, &["check", word, "backward", "2", "35", &answer]).good();
    let expected = b"accepted: 2 at 35, backward: found 2 at 30, 3 records\n";
    assert_eq!(check(b"", &k.hex()), expected);
    assert_eq!(check(b"", &folder.file("raw", &k.commitment)), expected);
    assert_eq!(check(b"", &folder.file("hex", line.as_bytes())), expected);
    assert_eq!(check(&k.commitment, "-"), expected);
    assert_eq!(check(line.as_bytes(), "-"), expected);
}

#[test]
fn show() {
    let k = Logged::k();
    let show = |direction: &str, entity: &str, time: &str, answer: &[u8]| {
        run_on(answer, &["show", &k.hex(), direction, entity, time, "-"]).good()
    };
    assert_eq!(show("backward", "2", "35", &k.answer(1, 2, 35)), BACKWARD.as_bytes());
    assert_eq!(show("forward", "2", "20", &k.answer(2, 2, 20)), FORWARD.as_bytes());
    assert_eq!(show("only", "2", "20", &k.answer(0, 2, 20)), b"found 2 at 20\n");
    assert_eq!(show("backward-after", "2", "21", &k.answer(4, 2, 21)), BACKWARD.as_bytes());
    assert_eq!(show("forward-after", "2", "21", &k.answer(5, 2, 21)), AHEAD.as_bytes());
    assert_eq!(show("backward", "2", "19", &k.answer(1, 2, 19)), b"not yet: the first version of 2 is at 20\n");
    assert_eq!(show("forward-after", "2", "31", &k.answer(5, 2, 31)), b"none so late: the last version of 2 is at 30\n");
}

/// Spans: their words, the answer's length, and what `check` says, with a line a version.
#[test]
fn between() {
    let folder = Folder::new("between");
    let k = Logged::k();
    let log = folder.file("k", &k.log);
    for (entity, from, until, length, verdict, versions) in [
        (1, 10, 40, 470, "listed 2 versions", "1 at 10\n1 at 40\n"),
        (1, 0, u64::MAX, 470, "listed 2 versions", "1 at 10\n1 at 40\n"),
        (2, 20, 29, 393, "listed 1 version", "2 at 20\n"),
        (2, 30, 30, 393, "listed 1 version", "2 at 30\n"),
        (2, 21, 29, 316, "listed 0 versions", ""),
        (2, 31, 99, 219, "listed 0 versions", ""),
        (3, 0, 99, 65, "no entity", ""),
    ] {
        let words = [entity.to_string(), from.to_string(), until.to_string()];
        let words = [&words[0], &words[1], &words[2]].map(String::as_str);
        let accepted = format!("accepted: {entity} from {from} to {until}, all versions: {verdict}\n{versions}");
        for direction in ["between", "6"] {
            let question = [&[direction], &words[..]].concat();
            let answer = run(&[&["answer", &log], &question[..]].concat()).good();
            assert_eq!((answer.len(), &answer), (length, &k.between(entity, from, until)));
            let file = folder.file("a", &answer);
            let of = |command: &str| String::from_utf8(run(&[&[command, &k.hex()], &question[..], &[&file]].concat()).good()).unwrap();
            assert_eq!(of("check"), accepted);
            assert_eq!(of("show"), format!("{verdict}\n{versions}"));
            let told = String::from_utf8(run(&[&["ask", &log], &question[..]].concat()).good()).unwrap();
            assert_eq!(told, format!("commitment {}\n{accepted}", k.hex()));
        }
    }
}

#[test]
fn demo() {
    let k = Logged::k();
    let told = String::from_utf8(run(&["demo"]).good()).unwrap();
    let indented = |text: &str| text.lines().map(|line| format!("    {line}\n")).collect::<String>();
    let refused = "refused 24 at 424: its path digest differs from L\n";
    let mut rest = told.as_str();
    let late = "none so late: the last version of 2 is at 30\n";
    for text in [TEXT, LISTING, &k.hex(), BACKWARD, "found 1 at 10, 3 records\n", AHEAD, late, LIST, refused] {
        let text = indented(text);
        let place = rest.find(&text).unwrap_or_else(|| panic!("{text} is missing in {rest}"));
        rest = &rest[place + text.len()..];
    }
}
