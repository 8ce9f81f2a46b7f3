//! The page of a checked history: what is written, and, where Chromium is installed, what a browser makes of it.

mod common;

use std::process::Command;

use common::*;

/// The page of Log K's first question, and what else was written.
fn page(folder: &Folder, words: &[&str]) -> (String, Ran) {
    let k = Logged::k();
    let answer = folder.file("answer", &k.answer(1, 2, 35));
    let page = folder.path("page.html");
    let ran = run(&[&["show", &k.hex(), "backward", "2", "35", &answer, "--html", &page], words].concat());
    (format!("file://{page}"), ran)
}

#[test]
fn a_page_is_written_beside_the_text_or_alone() {
    let folder = Folder::new("page_written");
    let (_, ran) = page(&folder, &[]);
    assert!(ran.good().starts_with(b"found 2 at 30, 3 records\n0: 1 at 10, birth\n"));
    let written = String::from_utf8(folder.read("page.html")).unwrap();
    assert!(written.contains("<title>2 at 35, backward: found 2 at 30, 3 records</title>"));
    assert!(written.contains(&format!("\"commitment\":\"{}\"", Logged::k().hex())));
    let k = Logged::k();
    let alone = run_on(&k.answer(1, 2, 35), &["show", &k.hex(), "backward", "2", "35", "-", "--html", "-"]).good();
    assert_eq!(alone, written.as_bytes());
}

#[test]
fn lanes_are_drawn_in_the_terminal() {
    let folder = Folder::new("page_lanes");
    let (_, ran) = page(&folder, &["--graph"]);
    let expected = "found 2 at 30, 3 records\no   1 at 10\n| o 2 at 20\n+-* 2 at 30, kind 7 from 1 at 10\n";
    assert_eq!(String::from_utf8(ran.good()).unwrap(), expected);
}

#[test]
fn a_wrong_line_of_names_is_named() {
    let folder = Folder::new("page_names");
    let names = folder.file("names", b"entity 1 plan\nentity two plan\n");
    let (_, ran) = page(&folder, &["--names", &names]);
    assert_eq!((ran.status, ran.text()), (2, ""));
    assert!(ran.err.contains("names: line 2: "), "{}", ran.err);
}

/// What a browser's document holds after the page's script has run; none without a browser.
fn browsed(address: &str) -> Option<String> {
    let flags = ["--headless", "--no-sandbox", "--disable-gpu", "--virtual-time-budget=3000", "--window-size=1000,700", "--dump-dom"];
    let browsers = ["chromium", "chromium-browser", "google-chrome"];
    let tried = browsers.iter().find_map(|name| Command::new(name).args(flags).arg(address).output().ok());
    if tried.is_none() {
        println!("no Chromium is installed: the page was not looked at in a browser");
    }
    Some(String::from_utf8(tried?.stdout).expect("text"))
}

#[test]
fn a_browser_shows_the_history_and_a_lineage() {
    let folder = Folder::new("page_browsed");
    let names = folder.file("names", b"entity 1 lines plan\nkind 7 reads\ntime unix\n");
    let (address, ran) = page(&folder, &["--names", &names]);
    ran.good();
    let Some(shown) = browsed(&address) else { return };
    assert_eq!(shown.matches("<li ").count(), 3, "{shown}");
    assert!(shown.contains("reads (kind 7) from lines plan (1) at 1970-01-01T00:00:10Z (10)"), "{shown}");
    assert!(!shown.contains("id=\"unchecked\" hidden"));
    let Some(lineage) = browsed(&(address + "#0")) else { return };
    assert!(lineage.contains("lineage: 2 of 3 versions"), "{lineage}");
    assert_eq!(lineage.matches("class=\"  apart\"").count(), 1, "{lineage}");
}
