//! Several programs marked at once: a line each.

mod common;

use std::fs;

use common::*;

/// The lines below the heading, as words without the seconds, and the last line.
fn lines(ran: &Ran) -> (Vec<String>, &str) {
    let mut lines: Vec<&str> = ran.text().lines().skip(2).collect();
    let last = lines.pop().expect("a line");
    let short = |line: &&str| {
        let mut words: Vec<&str> = line.split_whitespace().collect();
        if words[1] == "224" {
            words.remove(4);
        }
        words.join(" ")
    };
    (lines.iter().map(short).collect(), last)
}

#[test]
fn a_folder_stands_for_the_programs_in_it() {
    let class = Folder::new("class_folder");
    for part in ["c", "d", ".e"] {
        fs::create_dir(class.path(part)).unwrap();
    }
    class.host("b", "echo >&2 noise; exit 1");
    class.host("a", "answer \"$@\"");
    class.host("c/host", "case $1 in 0 | 3) answer \"$@\" ;; *) printf x ;; esac");
    class.file("notes", b"");
    let folder = class.path("");
    let ran = run(&["mark", &folder]);
    let path = |name: &str| format!("{folder}{name}");
    let (all, last) = lines(&ran);
    assert_eq!((ran.status, last, ran.err.as_str()), (1, "1 of 5 have full marks", ""));
    assert_eq!(all[..3], [path("a 224 224 0 none"), path("b 224 0 224 none"), path("c/host 224 64 0 160 by row 16")]);
    assert!(all[3].starts_with(&path("d/host not started: ")) && all[3].contains("No such file"), "{}", all[3]);
    assert!(all[4].starts_with(&path("notes not started: ")) && all[4].contains("Permission denied"), "{}", all[4]);
}

#[test]
fn all_have_the_same_questions() {
    let folder = Folder::new("class_same");
    let noting = |name: &str| format!("tee log | cksum >>{name}.asked; echo \"$@\" >>{name}.asked; answer \"$@\" <log");
    let hosts = ["one", "two"].map(|name| folder.host(name, &noting(name)));
    let ran = run(&["mark", &hosts[0], &hosts[1]]);
    assert_eq!((ran.status, lines(&ran).1), (0, "2 of 2 have full marks"), "{}", ran.text());
    assert_eq!(folder.read("one.asked").iter().filter(|byte| **byte == b'\n').count(), 2 * 224);
    assert_eq!(folder.read("one.asked"), folder.read("two.asked"));
}

#[test]
fn the_words_after_two_dashes_start_each() {
    let folder = Folder::new("class_words");
    let hosts = ["one", "two"].map(|name| folder.host(name, "answer \"$@\""));
    for host in &hosts {
        let text = fs::read(host).unwrap();
        fs::remove_file(host).unwrap();
        fs::write(host, text).unwrap();
    }
    let ran = run(&["mark", &hosts[0], &hosts[1], &folder.path("three"), "--", "sh", "-u"]);
    assert_eq!((ran.status, lines(&ran).1), (1, "2 of 3 have full marks"), "{}", ran.text());
    assert_eq!(lines(&ran).0[0], format!("{} 224 224 0 none", hosts[0]));
    assert!(lines(&ran).0[2].ends_with("three: there is no such file"), "{}", ran.text());
}

#[test]
fn each_has_its_folder_of_what_is_kept() {
    let folder = Folder::new("class_kept");
    let hosts = ["good", "bad"].map(|name| folder.host(name, if name == "good" { "answer \"$@\"" } else { "printf x" }));
    run(&["mark", &hosts[0], &hosts[1], "--keep", &folder.path("kept")]);
    let kept: Vec<_> = fs::read_dir(folder.path("kept")).unwrap().map(|entry| entry.unwrap().file_name()).collect();
    assert_eq!(kept, [hosts[1].replace('/', "_").as_str()]);
    let place = format!("kept/{}", hosts[1].replace('/', "_"));
    assert_eq!(folder.read(&format!("{place}/answer")), b"x");
    assert!(folder.read(&format!("{place}/said")).ends_with(b"byte 0: R: 78 stands there, and the true answer has 52\n"));
}

#[test]
fn an_empty_folder_is_an_error_of_use() {
    let ran = run(&["mark", &Folder::new("class_empty").path("")]);
    assert_eq!((ran.status, ran.text()), (2, ""));
    assert!(ran.err.contains("there is no program in this folder"), "{}", ran.err);
}
