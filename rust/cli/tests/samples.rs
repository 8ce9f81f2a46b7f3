//! The practical's sample logs: each as text, as bytes, and with its commitment.

mod common;

use std::collections::BTreeSet;
use std::fs;
use std::path::Path;

use common::*;

const LOGS: &str = concat!(env!("CARGO_MANIFEST_DIR"), "/../../practical/logs");

/// The names of the files with an ending, without it.
fn names(ending: &str) -> BTreeSet<String> {
    let files = fs::read_dir(LOGS).expect("the sample logs").map(|file| file.expect("a file").file_name().into_string().expect("UTF-8"));
    files.filter_map(|file| Some(file.strip_suffix(ending)?.to_string())).collect()
}

#[test]
fn every_sample_has_its_text_its_bytes_and_its_commitment() {
    let all = names(".txt");
    assert!(all.contains("k") && all.len() > 2, "{all:?}");
    assert!(all == names(".log") && all == names(".commitment"));
    for name in all {
        let file = |ending: &str| Path::new(LOGS).join(format!("{name}.{ending}")).to_str().expect("UTF-8").to_string();
        assert_eq!(run(&["log", &file("txt")]).good(), fs::read(file("log")).unwrap(), "{name}");
        assert_eq!(run(&["commit", &file("log")]).good(), fs::read(file("commitment")).unwrap(), "{name}");
        let records = reference::log::read(&fs::read(file("log")).unwrap()).expect("a sound log");
        assert_eq!(format!("{}\n", Logged::new(&records).hex()).into_bytes(), fs::read(file("commitment")).unwrap(), "{name}");
    }
}
