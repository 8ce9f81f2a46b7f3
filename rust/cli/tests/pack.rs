//! The archive that participants get, and the script that confines their programs.

mod common;

use std::fs;
use std::os::unix::fs::PermissionsExt;
use std::path::Path;
use std::process::Command;

use common::*;

const ROOT: &str = concat!(env!("CARGO_MANIFEST_DIR"), "/../..");

const CONTENT: [&str; 14] = [
    "LICENSE",
    "bozhtagul",
    "docs/01-scope.md",
    "docs/02-change-requests.md",
    "practical/HANDOUT.md",
    "practical/logs/bracket.commitment",
    "practical/logs/bracket.log",
    "practical/logs/bracket.txt",
    "practical/logs/k.commitment",
    "practical/logs/k.log",
    "practical/logs/k.txt",
    "practical/logs/office.commitment",
    "practical/logs/office.log",
    "practical/logs/office.txt",
];

fn program(folder: &Folder, name: &str, text: &str) {
    fs::set_permissions(folder.file(name, text.as_bytes()), fs::Permissions::from_mode(0o755)).unwrap();
}

/// The practical and the documents as they are, beside stand-ins for the script that builds and for the program that it builds.
fn tree(name: &str) -> Folder {
    let tree = Folder::new(name);
    for part in ["LICENSE", "docs", "practical"] {
        assert_eq!(run_with(Command::new("cp").args(["-r", &format!("{ROOT}/{part}"), &tree.path("")]), b"").status, 0);
    }
    for folder in ["target/cargo/release", "rust/reference"] {
        fs::create_dir_all(tree.path(folder)).unwrap();
    }
    let build = "#!/bin/sh\ncd \"$(dirname \"$0\")\" && [ \"$*\" = build ] && mv made target/cargo/release/bozhtagul\n";
    program(&tree, "bozhtagul", build);
    program(&tree, "made", "the program");
    tree.file("rust/reference/lib.rs", b"a solution");
    tree.file("practical/solution.rs", b"a solution");
    tree.file("practical/logs/answers", b"solutions");
    tree
}

fn pack(tree: &Folder, words: &[&str]) -> Ran {
    run_with(Command::new(tree.path("practical/pack")).args(words).current_dir(tree.path("docs")), b"")
}

/// Packs, and unpacks into the folder `out`.
fn unpacked(tree: &Folder) {
    assert_eq!(pack(tree, &["../mine.tgz"]).good(), b"../mine.tgz\n");
    fs::create_dir(tree.path("out")).unwrap();
    let mut tar = Command::new("tar");
    assert_eq!(run_with(tar.args(["-xzf", &tree.path("mine.tgz"), "-C", &tree.path("out")]), b"").status, 0);
}

#[test]
fn the_archive_has_what_a_participant_gets_and_nothing_else() {
    let tree = tree("pack_content");
    let archive = String::from_utf8(pack(&tree, &[]).good()).unwrap();
    assert_eq!(Path::new(archive.trim()).canonicalize().unwrap(), Path::new(&tree.path("target/practical.tar.gz")).canonicalize().unwrap());
    let list = run_with(Command::new("tar").args(["-tzf", archive.trim()]), b"").good();
    let files: Vec<&str> = std::str::from_utf8(&list).unwrap().lines().filter(|line| !line.ends_with('/')).collect();
    assert_eq!(files, CONTENT.map(|file| format!("bozhtagul-practical/{file}")));
}

#[test]
fn its_files_are_those_of_the_repository() {
    let tree = tree("pack_files");
    unpacked(&tree);
    assert_eq!(tree.read("out/bozhtagul-practical/bozhtagul"), b"the program");
    let mode = fs::metadata(tree.path("out/bozhtagul-practical/bozhtagul")).unwrap().permissions().mode();
    assert_eq!(mode & 0o111, 0o111, "it can be started");
    for file in CONTENT.into_iter().filter(|file| !["bozhtagul", "docs/02-change-requests.md"].contains(file)) {
        assert_eq!(tree.read(&format!("out/bozhtagul-practical/{file}")), tree.read(file), "{file}");
    }
}

/// The requests with a note, as document 02 names them and in its order.
fn landed() -> Vec<String> {
    let notes = fs::read_dir(format!("{ROOT}/docs/changes")).unwrap().map(|note| note.unwrap().file_name().into_string().unwrap());
    let mut numbers: Vec<u32> = notes.filter_map(|note| note.strip_prefix('A')?.strip_suffix(".md")?.parse().ok()).collect();
    numbers.sort_unstable();
    assert!(numbers.contains(&3) && numbers.contains(&10), "{numbers:?}");
    numbers.into_iter().map(|number| format!("**A{number}")).collect()
}

#[test]
fn of_document_02_it_has_the_requests_that_hold() {
    let tree = tree("pack_requests");
    unpacked(&tree);
    let all = String::from_utf8(tree.read("docs/02-change-requests.md")).unwrap();
    let packed = String::from_utf8(tree.read("out/bozhtagul-practical/docs/02-change-requests.md")).unwrap();
    let requests: Vec<&str> = packed.split("\n\n").skip(2).map(str::trim_end).collect();
    let names: Vec<&str> = requests.iter().map(|request| request.split('.').next().unwrap()).collect();
    assert_eq!(names, landed());
    let handout = String::from_utf8(tree.read("practical/HANDOUT.md")).unwrap();
    let words: Vec<&str> = handout.split(|letter: char| !letter.is_alphanumeric()).collect();
    assert!(names.iter().all(|name| words.contains(&&name[2..])), "the handout says of each whether a host notices it: {names:?}");
    assert!(requests.iter().all(|request| all.split("\n\n").any(|paragraph| paragraph.trim_end() == *request)));
}

#[test]
fn the_links_of_the_handout_lead_into_the_archive() {
    let tree = tree("pack_links");
    unpacked(&tree);
    let handout = String::from_utf8(tree.read("out/bozhtagul-practical/practical/HANDOUT.md")).unwrap();
    let links: Vec<&str> = handout.split("](").skip(1).filter_map(|rest| rest.split(')').next()).collect();
    assert!(links.len() > 2, "{links:?}");
    for link in links {
        assert!(Path::new(&tree.path(&format!("out/bozhtagul-practical/practical/{link}"))).exists(), "{link}");
    }
}

/// With a stand-in for bubblewrap, which shows its words.
#[test]
fn a_confined_program_sees_its_own_folder_and_has_all_its_words() {
    let folder = Folder::new("pack confined");
    fs::create_dir(folder.path("alice b")).unwrap();
    program(&folder, "bwrap", "#!/bin/sh\nprintf '%s\\n' \"$@\"\ncat\n");
    program(&folder, "alice b/host", "");
    let path = format!("{}:{}", folder.path(""), std::env::var("PATH").unwrap());
    let mut script = Command::new(format!("{ROOT}/practical/confined"));
    let ran = run_with(script.args(["alice b/host", "1", "2", "35"]).env("PATH", path).current_dir(folder.path("")), b"the log").good();
    let text = String::from_utf8(ran).unwrap();
    let words: Vec<&str> = text.lines().collect();
    let own = Path::new(&folder.path("alice b")).canonicalize().unwrap();
    let bound: Vec<&[&str]> = words.windows(3).filter(|words| words[0].contains("bind")).collect();
    assert_eq!(bound, [["--ro-bind", "/usr", "/usr"], ["--ro-bind", own.to_str().unwrap(), "/work"]]);
    assert!(words.contains(&"--unshare-all"));
    assert!(words.ends_with(&["--chdir", "/work", "--", "./host", "1", "2", "35", "the log"]), "{words:?}");
}
