//! No exported call requires anything of its arguments: the source of the calls says no such word, and the crate `any_caller`, which is
//! proved with no facts at all, calls every one of them.

use std::path::Path;

/// All files of a crate's source, one behind the other.
fn source(name: &str) -> String {
    let folder = Path::new(env!("CARGO_MANIFEST_DIR")).join("../../crates").join(name).join("src");
    let files = std::fs::read_dir(&folder).unwrap_or_else(|error| panic!("{}: {error}", folder.display()));
    files.map(|file| std::fs::read_to_string(file.expect("an entry").path()).expect("a file of text")).collect()
}

/// The lines that require something of an argument.
fn requirements(source: &str) -> Vec<&str> {
    let code = |line: &&str| !line.trim_start().starts_with("//");
    source.lines().filter(code).filter(|line| line.contains("requires")).collect()
}

/// The names of the exported calls.
fn exported(source: &str) -> Vec<&str> {
    let declared = source.lines().filter_map(|line| line.split_once("extern \"C\" fn "));
    declared.map(|(_, rest)| rest.split('(').next().unwrap_or(rest)).collect()
}

/// Those of the exported calls that a source does not call.
fn uncalled<'a>(calls: &[&'a str], caller: &str) -> Vec<&'a str> {
    calls.iter().copied().filter(|call| !caller.contains(&format!("bozhtagul::{call}("))).collect()
}

#[test]
fn no_exported_call_requires_anything() {
    for calls in [source("bozhtagul"), source("bozhtagul_c")] {
        assert_eq!(exported(&calls).len(), 10);
        assert!(requirements(&calls).is_empty(), "{:?}", requirements(&calls));
    }
}

#[test]
fn every_exported_call_is_called_with_any_arguments() {
    let (calls, caller) = (source("bozhtagul"), source("any_caller"));
    assert_eq!(exported(&calls).len(), 10);
    assert!(uncalled(&exported(&calls), &caller).is_empty(), "{:?}", uncalled(&exported(&calls), &caller));
    assert!(requirements(&caller).is_empty(), "{:?}", requirements(&caller));
}

#[test]
fn what_is_amiss_is_found() {
    let calls = "// requires nothing\npub extern \"C\" fn one(x: u8) -> u8\n    requires { ⌜ x ≡ 1 ⌝ }\npub extern \"C\" fn two() -> u8 {";
    assert_eq!(requirements(calls), ["    requires { ⌜ x ≡ 1 ⌝ }"]);
    assert_eq!(exported(calls), ["one", "two"]);
    assert_eq!(uncalled(&exported(calls), "bozhtagul::two()"), ["one"]);
}
