//! What the documents say of the repository is so: what they name is there, every wrong version is named and can be made, what they quote stands word for word
//! in the document that it is quoted from, their links lead somewhere, and their tables are whole.

mod markdown;
mod names;
mod quotations;
mod repository;
mod wrong_versions;

use std::path::Path;

use markdown::{broken_tables, links, passages, Passage};
use names::{names, Checked};
use quotations::{plain, quotations, stands_in, unquoted_sentences};
use repository::Repository;
use wrong_versions::{faults, wrong_versions, WrongVersion};

const PROMISES: &str = "docs/PROMISES.md";
const SCOPE: &str = "docs/01-scope.md";
const REQUESTS: &str = "docs/02-change-requests.md";

/// The heading of the promises' table of wrong versions.
const WRONG_VERSIONS: &str = "Wrong versions that are refused";

/// What stands at the root and is no folder of a build.
const PARTS: [&str; 16] = [
    "README.md", "LICENSE", "test", "wrong-versions", "bozhtagul", "staticlib", "release", "crates.txt", "crates", "include", "rust", "docs", "bench",
    "fuzz", "practical", "tools",
];

/// Code in the promises that names nothing: forms of names, and words of the language.
const NO_NAMES: [&str; 10] = [
    "Module.name",
    "crate::function",
    "package/tests/file",
    "test",
    "must-fail/",
    "requires",
    "&mut",
    "const",
    "extern \"C\"",
    "constants.now ≡ K",
];

fn repository() -> Repository {
    Repository::read(&Path::new(env!("CARGO_MANIFEST_DIR")).join("../.."), &PARTS)
}

/// The paths of all documents.
fn documents(repository: &Repository) -> Vec<&str> {
    let all = ["README.md", "docs", "practical"].into_iter().flat_map(|part| repository.below(part));
    all.filter(|path| path.ends_with(".md")).collect()
}

#[test]
fn the_promises_name_what_is_there() {
    let repository = repository();
    let found = names(&repository, &passages(repository.text(PROMISES)), Checked::All, &NO_NAMES);
    assert!(found.wrong.is_empty(), "{PROMISES}:\n{}", found.wrong.join("\n"));
    assert!(found.names > 1_000, "{} names", found.names);
    for word in NO_NAMES {
        assert!(repository.text(PROMISES).contains(&format!("`{word}`")), "{word} stands in the promises no more");
    }
}

/// The rows of the promises' table of wrong versions: what they are of, and their names.
fn wrong_version_rows(repository: &Repository) -> Vec<(String, String)> {
    let rows = passages(repository.text(PROMISES)).into_iter().filter(|passage| passage.heading == WRONG_VERSIONS);
    rows.filter_map(|row| <[String; 2]>::try_from(row.cells).ok().map(|[what, names]| (what, names))).collect()
}

fn is_in_row(wrong: &WrongVersion, (what, names): &(String, String)) -> bool {
    let is_of = what.contains(&format!("`{}::", wrong.owner)) || what.contains(&format!("`{}`", wrong.owner));
    is_of && names.contains(&format!("`{}`", wrong.name))
}

/// The wrong versions of which no row of the promises' table has both the name and the crate.
fn unnamed(repository: &Repository) -> Vec<&str> {
    let rows = wrong_version_rows(repository);
    let unnamed = wrong_versions(repository).into_iter().filter(|wrong| !rows.iter().any(|row| is_in_row(wrong, row)));
    unnamed.map(|wrong| wrong.path).collect()
}

/// The rows of which the gate tries fewer than two wrong versions, and not all.
fn untried(repository: &Repository) -> Vec<String> {
    let all = wrong_versions(repository);
    let too_few = |row: &(String, String)| {
        let of_row = || all.iter().filter(|wrong| is_in_row(wrong, row));
        of_row().filter(|wrong| wrong.in_the_gate).count() < of_row().count().min(2)
    };
    wrong_version_rows(repository).into_iter().filter(too_few).map(|(what, _)| what).collect()
}

#[test]
fn the_promises_name_every_wrong_version() {
    let repository = repository();
    let unnamed = unnamed(&repository);
    assert!(unnamed.is_empty(), "{PROMISES}:\n{}", unnamed.join("\n"));
}

#[test]
fn the_gate_tries_two_wrong_versions_of_each_promise() {
    let untried = untried(&repository());
    assert!(untried.is_empty(), "{PROMISES}:\n{}", untried.join("\n"));
}

#[test]
fn every_wrong_version_can_be_made() {
    let repository = repository();
    let all = wrong_versions(&repository);
    let faults: Vec<String> = all.iter().flat_map(|wrong| faults(&repository, wrong)).collect();
    assert!(faults.is_empty(), "{}", faults.join("\n"));
    assert!(all.len() > 300, "{} wrong versions", all.len());
}

/// A repository whose promises have one row of wrong versions.
fn with_row(row: &str, files: &[(&str, &str)]) -> Repository {
    let promises = format!("## {WRONG_VERSIONS}\n\n| what | wrong versions |\n|---|---|\n{row}\n");
    Repository::of(&[&[(PROMISES, promises.as_str())], files].concat())
}

#[test]
fn an_unnamed_wrong_version_is_reported() {
    for path in ["crates/log_reader/must-fail/late.edit", "crates/log_reader/must-fail/more/late.edit"] {
        let unnamed_by = |row: &str| unnamed(&with_row(row, &[(path, "")])).len();
        for named in ["| `log_reader::read` | `late` |", "| definitions of `log_reader` | `early`, `late` |"] {
            assert_eq!(unnamed_by(named), 0, "{named}");
        }
        for row in ["| `log_reader::read` | `later` |", "| `model` | `late` |", "| `late` | `log_reader` |", ""] {
            assert_eq!(unnamed_by(row), 1, "{row}");
        }
    }
}

#[test]
fn a_promise_with_too_few_wrong_versions_in_the_gate_is_reported() {
    let untried_of = |files: &[(&str, &str)]| untried(&with_row("| `log_reader::read` | `early`, `late`, `never` |", files)).len();
    let (early, late) = (("crates/log_reader/must-fail/early.edit", ""), ("crates/log_reader/must-fail/late.edit", ""));
    let never = ("crates/log_reader/must-fail/more/never.edit", "");
    assert_eq!(untried_of(&[early, late, never]), 0);
    assert_eq!(untried_of(&[early]), 0);
    assert_eq!(untried_of(&[early, never]), 1);
    assert_eq!(untried_of(&[never]), 1);
}

#[test]
fn a_wrong_version_that_cannot_be_made_is_reported() {
    let faults_of = |edit: &str| {
        let files = [("crates/log_reader/must-fail/late.edit", edit), ("crates/log_reader/src/lib.rt", "a < b\nc < d\nc < d\n")];
        let repository = Repository::of(&files);
        wrong_versions(&repository).iter().flat_map(|wrong| faults(&repository, wrong)).count()
    };
    assert_eq!(faults_of("file: src/lib.rt\nold: a < b\nnew: a > b\n"), 0);
    assert_eq!(faults_of("file: src/lib.rt\nold: a < b\nnew: a > b\nold: a > b\nnew:\n"), 0);
    for edit in ["", "file: src/lib.rt\nold: c < d\nnew: d\n", "file: src/lib.rt\nold: e\nnew: d\n", "file: src/main.rt\nold: a < b\nnew: d\n", "file: src/lib.rt\nnew: d\n"] {
        assert_eq!(faults_of(edit), 1, "{edit}");
    }
}

/// The text that a quotation is taken from: a document that is named before it in its cell, else under a request's heading the request, else
/// document 01.
fn source(repository: &Repository, heading: &str, before: &str) -> String {
    let named = ["README.md", "docs/DECISIONS.md"].into_iter().find(|path| before.contains(path.trim_start_matches("docs/")));
    let request = heading.split_once(':').map_or("", |(number, _)| number);
    let requests = passages(repository.text(REQUESTS)).into_iter().map(|passage| plain(&passage.cells[0]));
    match (named, requests.into_iter().find(|text| !request.is_empty() && text.starts_with(&format!("{request}.")))) {
        (Some(path), _) => repository.text(path).to_string(),
        (None, Some(text)) => text,
        (None, None) => repository.text(SCOPE).to_string(),
    }
}

/// The heading under which the users speak, whose words stand in no document here.
const OWN_WORDS: &str = "The three demands";

/// What is quoted in a passage: how much, and what is wrong with it.
fn quoted(repository: &Repository, passage: &Passage) -> (usize, Vec<String>) {
    let (mut count, mut wrong) = (0, Vec::new());
    for cell in passage.cells.iter().filter(|_| passage.heading != OWN_WORDS) {
        let Some(quotations) = quotations(cell) else {
            wrong.push(format!("line {}: a quotation does not end: {cell}", passage.line));
            continue;
        };
        for quotation in quotations {
            count += 1;
            if !stands_in(quotation.text, &source(repository, &passage.heading, &cell[..quotation.start])) {
                wrong.push(format!("line {}: not in its document: {}", passage.line, quotation.text));
            }
        }
    }
    (count, wrong)
}

#[test]
fn the_promises_quote_word_for_word() {
    let repository = repository();
    let (counts, wrong): (Vec<usize>, Vec<Vec<String>>) =
        passages(repository.text(PROMISES)).iter().map(|passage| quoted(&repository, passage)).unzip();
    let wrong = wrong.concat();
    assert!(wrong.is_empty(), "{PROMISES}:\n{}", wrong.join("\n"));
    let count: usize = counts.iter().sum();
    assert!(count > 100, "{count} quotations");
}

/// Sentences of document 01 that define and promise nothing.
const NO_PROMISES: [&str; 2] = ["We read the code and also the proofs.", "Marked :"];

/// What the promises quote under the headings that are taken.
fn quoted_under(promises: &[Passage], is_taken: impl Fn(&str) -> bool) -> Vec<String> {
    let cells = promises.iter().filter(|passage| is_taken(&passage.heading)).flat_map(|passage| &passage.cells);
    cells.filter_map(|cell| quotations(cell)).flatten().map(|quotation| quotation.text.to_string()).collect()
}

#[test]
fn the_promises_quote_every_sentence_of_document_01() {
    let repository = repository();
    let quoted = quoted_under(&passages(repository.text(PROMISES)), |_| true);
    let document = passages(repository.text(SCOPE)).into_iter().filter(|passage| passage.cells.len() == 1);
    let paragraphs: Vec<String> = document.flat_map(|passage| passage.cells).collect();
    assert_eq!(unquoted_sentences(&paragraphs, &quoted), NO_PROMISES);
}

/// The sentences of a request that no row under its heading quotes; its title is none.
fn unquoted_of_request(promises: &[Passage], request: &str) -> Vec<String> {
    let (title, text) = request.trim_start_matches("**").split_once(".** ").expect("a title");
    let number = title.split('.').next().expect("a number");
    let quoted = quoted_under(promises, |heading| heading.starts_with(&format!("{number}:")));
    unquoted_sentences(&[text.to_string()], &quoted)
}

/// A request has landed if `docs/changes` tells of it.
#[test]
fn the_promises_quote_every_sentence_of_the_requests_landed() {
    let repository = repository();
    let promises = passages(repository.text(PROMISES));
    let requests: Vec<String> = passages(repository.text(REQUESTS)).into_iter().map(|mut passage| passage.cells.remove(0)).collect();
    let landed: Vec<&str> = repository.below("docs/changes").map(|path| path["docs/changes/".len()..].trim_end_matches(".md")).collect();
    assert!(landed.contains(&"A1") && landed.contains(&"A2"), "{landed:?}");
    for number in landed {
        let request = requests.iter().find(|request| request.starts_with(&format!("**{number}. "))).expect(number);
        assert_eq!(unquoted_of_request(&promises, request), Vec::<String>::new(), "{number}");
    }
}

#[test]
fn an_unquoted_sentence_of_a_request_is_reported() {
    let request = "**A1. Looking ahead.** Six directions. No t + 1.";
    let unquoted = |rows: &str| unquoted_of_request(&passages(&format!("### A1: ahead\n\n{rows}\n\n### A2: spans\n\n\"No t + 1.\"\n")), request);
    assert_eq!(unquoted("\"Six directions.\" and \"No t + 1.\""), Vec::<String>::new());
    assert_eq!(unquoted("\"Six directions.\""), ["No t + 1."]);
}

#[test]
fn an_altered_quotation_is_reported() {
    let repository = Repository::of(&[
        (SCOPE, "# Log\n\nTimes rise. At most 7 records.\n"),
        (REQUESTS, "**A3. Constants.** The table goes.\n\n**A10. Order.** Take it out.\n"),
        ("README.md", "## What is promised\n"),
    ]);
    let wrong = |text: &str| passages(text).iter().flat_map(|passage| quoted(&repository, passage).1).collect::<Vec<_>>();
    let row = |heading: &str, cell: &str| wrong(&format!("## {heading}\n\n| sentence |\n|---|\n| {cell} |\n"));
    for (heading, cell) in [
        ("Log", "\"Times rise.\" and \"At most 7 records.\""),
        ("A3: constants", "\"The table goes.\""),
        ("A10: order", "\"Take it out.\""),
        ("Log", "README.md, \"What is promised\""),
        (OWN_WORDS, "\"Refused first\""),
    ] {
        assert_eq!(row(heading, cell), Vec::<String>::new(), "{cell}");
    }
    for (heading, cell) in [
        ("Log", "\"Times fall.\""),
        ("Log", "\"The table goes.\""),
        ("A3: constants", "\"Take it out.\""),
        ("A3: constants", "\"Times rise.\""),
        ("Log", "README.md, \"Times rise.\""),
        ("Log", "\"Times rise."),
    ] {
        assert_eq!(row(heading, cell).len(), 1, "{cell}");
    }
}

#[test]
fn tables_are_whole() {
    let repository = repository();
    for path in documents(&repository) {
        let broken = broken_tables(repository.text(path));
        assert!(broken.is_empty(), "{path}:\n{}", broken.join("\n"));
    }
}

/// What stands in `docs/changes` was so when a request landed, so that names may have gone since; its links have to lead somewhere.
#[test]
fn the_documents_name_what_is_there() {
    let repository = repository();
    let (mut count, mut wrong) = (0, Vec::new());
    for path in documents(&repository).into_iter().filter(|path| *path != PROMISES && !path.starts_with("docs/changes")) {
        let found = names(&repository, &passages(repository.text(path)), Checked::WithPlace, &NO_NAMES);
        count += found.names;
        wrong.extend(found.wrong.iter().map(|wrong| format!("{path}: {wrong}")));
    }
    assert!(wrong.is_empty(), "{}", wrong.join("\n"));
    assert!(count > 150, "{count} names");
}

/// The anchor of a heading: small letters, hyphens for spaces, and no other marks.
fn anchor(heading: &str) -> String {
    let letters = heading.trim_matches(['#', ' ']).to_lowercase().replace(' ', "-");
    letters.chars().filter(|letter| letter.is_alphanumeric() || *letter == '-').collect()
}

/// The links of a document that lead nowhere.
fn lost_links(repository: &Repository, path: &str) -> Vec<String> {
    let above = |path: &str| path.rsplit_once('/').map_or(String::new(), |(folder, _)| folder.to_string());
    let folder = above(path);
    let lost = |link: &str| {
        let (file, place) = link.split_once('#').unwrap_or((link, ""));
        let target = match (file, file.strip_prefix("../")) {
            ("", _) => path.to_string(),
            (_, Some(file)) => format!("{}/{file}", above(&folder)).trim_matches('/').to_string(),
            _ => format!("{folder}/{file}").trim_matches('/').to_string(),
        };
        let is_there = repository.below(&target).next().is_some();
        let has_place = |text: &str| text.lines().any(|line| line.starts_with('#') && anchor(line) == place);
        !is_there || !(place.is_empty() || has_place(repository.text(&target)))
    };
    links(repository.text(path)).into_iter().filter(|link| lost(link)).map(|link| format!("{path}: {link}")).collect()
}

#[test]
fn links_lead_somewhere() {
    let repository = repository();
    let lost: Vec<String> = documents(&repository).into_iter().flat_map(|path| lost_links(&repository, path)).collect();
    assert!(lost.is_empty(), "{}", lost.join("\n"));
}

#[test]
fn a_lost_link_is_reported() {
    let text = "[a](B.md) [b](#one-two) [c](B.md#it) [d](changes/) [e](../README.md)\n\n## One: two\n";
    let files = |text| Repository::of(&[("docs/A.md", text), ("docs/B.md", "# It\n"), ("docs/changes/C.md", ""), ("README.md", "")]);
    assert_eq!(lost_links(&files(text), "docs/A.md"), Vec::<String>::new());
    for lost in ["[a](C.md)", "[a](#two)", "[a](B.md#one-two)", "[a](other/)", "[a](../B.md)"] {
        assert_eq!(lost_links(&files(lost), "docs/A.md").len(), 1, "{lost}");
    }
}
