//! The wrong versions: files of a crate's `must-fail`, which the gate tries; one in a folder `more` below it would not be tried.

use std::collections::BTreeMap;

use crate::repository::Repository;

/// A wrong version: the crate, its name, and whether the gate tries it.
pub struct WrongVersion<'a> {
    pub path: &'a str,
    pub owner: &'a str,
    pub name: &'a str,
    pub in_the_gate: bool,
}

pub fn wrong_versions(repository: &Repository) -> Vec<WrongVersion<'_>> {
    let paths = repository.below("crates").filter(|path| path.ends_with(".edit"));
    let parts = paths.filter_map(|path| match path.split('/').collect::<Vec<_>>()[..] {
        ["crates", owner, "must-fail", name] => Some((path, owner, name, true)),
        ["crates", owner, "must-fail", "more", name] => Some((path, owner, name, false)),
        _ => None,
    });
    parts.map(|(path, owner, name, in_the_gate)| WrongVersion { path, owner, name: name.trim_end_matches(".edit"), in_the_gate }).collect()
}

/// The pairs of an old and a new text, with the file that each is of.
fn changes(edit: &str) -> Vec<(&str, &str, &str)> {
    let (mut file, mut old, mut pairs) = ("", "", Vec::new());
    for line in edit.lines() {
        match line.split_once(':') {
            Some(("file", name)) => file = name.trim_start(),
            Some(("old", text)) => old = text.strip_prefix(' ').unwrap_or(text),
            Some(("new", text)) => pairs.push((file, old, text.strip_prefix(' ').unwrap_or(text))),
            _ => {}
        }
    }
    pairs
}

/// What is wrong with a wrong version that cannot be made: each text that it changes has to stand once in its file, after the changes before it.
pub fn faults(repository: &Repository, wrong: &WrongVersion) -> Vec<String> {
    let pairs = changes(repository.text(wrong.path));
    let mut texts: BTreeMap<&str, String> = BTreeMap::new();
    let mut faults = if pairs.is_empty() { vec!["it changes nothing".to_string()] } else { vec![] };
    for (file, old, new) in pairs {
        let path = format!("crates/{}/{file}", wrong.owner);
        let text = texts.entry(file).or_insert_with(|| repository.below(&path).map(|path| repository.text(path)).collect());
        let count = if old.is_empty() { 0 } else { text.matches(old).count() };
        if count != 1 {
            faults.push(format!("{count} times in {file}: {old}"));
        }
        *text = text.replacen(old, new, 1);
    }
    faults.into_iter().map(|fault| format!("{}: {fault}", wrong.path)).collect()
}
