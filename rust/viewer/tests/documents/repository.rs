//! The files of a repository, and what each of them declares.

use std::collections::BTreeMap;
use std::fs;
use std::path::Path;

/// Texts by their path from the root.
pub struct Repository {
    files: BTreeMap<String, String>,
}

impl Repository {
    /// The files that stand in these folders and files of a root.
    pub fn read(root: &Path, parts: &[&str]) -> Self {
        let mut files = BTreeMap::new();
        parts.iter().for_each(|part| read_below(root, part, &mut files));
        Repository { files }
    }

    pub fn text(&self, path: &str) -> &str {
        self.files.get(path).unwrap_or_else(|| panic!("{path} is not there"))
    }

    /// The paths of files at or below a path.
    pub fn below<'a>(&'a self, path: &'a str) -> impl Iterator<Item = &'a str> {
        let inside = move |file: &str| file.strip_prefix(path).is_some_and(|rest| rest.is_empty() || rest.starts_with('/'));
        self.files.keys().map(String::as_str).filter(move |file| inside(file))
    }

    pub fn is_there(&self, path: &str) -> bool {
        self.below(path).next().is_some()
    }

    pub fn crates(&self) -> Vec<&str> {
        let mut names: Vec<&str> = self.below("crates").filter_map(|path| path.split('/').nth(1)).collect();
        names.dedup();
        names
    }

    /// What a document means by a path: it is written from the root, from `crates`, from `rust` or from a crate's folder, and a file may
    /// stand without its ending.
    pub fn find(&self, written: &str) -> Option<String> {
        let written = written.trim_start_matches("./").trim_end_matches('/');
        let folders = ["", "crates/", "rust/"].map(String::from).into_iter();
        let mut folders = folders.chain(self.crates().into_iter().map(|name| format!("crates/{name}/")));
        folders.find_map(|folder| {
            let mut paths = ["", ".rs", ".antt", "/main.rs"].map(|ending| format!("{folder}{written}{ending}")).into_iter();
            paths.find(|path| self.is_there(path))
        })
    }

    /// Whether a file at or below a path declares a name.
    pub fn declares(&self, path: &str, name: &str) -> bool {
        self.below(path).any(|file| declared(file, self.text(file)).any(|other| other == name))
    }

    /// Whether a Rust file has a test of that name.
    pub fn has_test(&self, file: &str, name: &str) -> bool {
        let mut lines = self.text(file).lines().map(str::trim);
        while lines.any(|line| line == "#[test]") {
            if lines.next().and_then(declared_in_code) == Some(name) {
                return true;
            }
        }
        false
    }

    /// The files of the modules with that name, among some crates' definitions and proofs.
    pub fn modules(&self, crates: &[&str], name: &str) -> Vec<String> {
        let paths = crates.iter().flat_map(|owner| ["specs", "proofs"].map(|part| format!("crates/{owner}/{part}/{name}.antt")));
        paths.filter(|path| self.files.contains_key(path)).collect()
    }
}

fn read_below(root: &Path, part: &str, files: &mut BTreeMap<String, String>) {
    let path = root.join(part);
    if !path.is_dir() {
        let bytes = fs::read(&path).unwrap_or_else(|reason| panic!("{part}: {reason}"));
        files.insert(part.to_string(), String::from_utf8_lossy(&bytes).into_owned());
        return;
    }
    for entry in fs::read_dir(&path).expect("a folder") {
        let name = entry.expect("an entry").file_name();
        let below = format!("{part}/{}", name.to_str().expect("UTF-8"));
        if !is_kept(&below) {
            read_below(root, &below, files);
        }
    }
}

/// Whether a folder is `crates/NAME/out`, where the prover keeps what it made.
fn is_kept(path: &str) -> bool {
    matches!(path.split('/').collect::<Vec<_>>()[..], ["crates", _, "out"])
}

fn declared<'a>(path: &str, text: &'a str) -> impl Iterator<Item = &'a str> {
    let read: fn(&str) -> Option<&str> = match path.rsplit('.').next() {
        Some("antt") => declared_in_logic,
        Some("rt" | "rs") => declared_in_code,
        _ => |_| None,
    };
    text.lines().filter_map(read)
}

/// The name that a line of definitions or proofs declares. What is local to a proof is indented by more than a record's field or a
/// constructor, and is not public.
fn declared_in_logic(line: &str) -> Option<&str> {
    let indent = line.len() - line.trim_start().len();
    let mut words = line.split_whitespace();
    let (mut public, mut is_type) = (false, false);
    let name = words.find(|word| {
        public |= *word == "pub";
        is_type |= ["record", "data"].contains(word);
        !["pub", "abbrev", "unfoldable", "record", "data"].contains(word)
    })?;
    let named = is_type || words.next() == Some(":");
    (named && (public || indent <= 2)).then_some(name)
}

/// The name that a line of Rattle or Rust declares; a contract's clause is declared by `ensures NAME {`, and one without a name by none.
fn declared_in_code(line: &str) -> Option<&str> {
    if line.trim_start().starts_with("//") {
        return None;
    }
    if let Some(clause) = line.trim_start().strip_prefix("ensures") {
        let name = clause.trim_start_matches('*').split('{').next().map_or("", str::trim);
        return (!name.is_empty()).then_some(name);
    }
    let mut words = line.split(|letter: char| !letter.is_alphanumeric() && letter != '_').filter(|word| !word.is_empty());
    let keyword = words.find(|word| !["pub", "crate", "extern", "C"].contains(word))?;
    let declares = ["fn", "struct", "enum", "const", "mod"].contains(&keyword);
    words.next().filter(|_| declares)
}

#[cfg(test)]
mod tests {
    use super::*;

    impl Repository {
        /// A made-up repository.
        pub fn of(files: &[(&str, &str)]) -> Self {
            Repository { files: files.iter().map(|(path, text)| (path.to_string(), text.to_string())).collect() }
        }
    }

    #[test]
    fn definitions_fields_and_laws_are_declared() {
        let cases = [
            ("abbrev pub letter_L : ℕ", Some("letter_L")),
            ("pub record Subtree : Type 0 where", Some("Subtree")),
            ("pub record Exact (s t : ℕ) : Type 0 where", Some("Exact")),
            ("  pub least : ℕ", Some("least")),
            ("  tip : A → Tree A", Some("tip")),
            ("    pub inner : ℕ", Some("inner")),
            ("pub rows_of_the_log :", Some("rows_of_the_log")),
            ("unfoldable pub given : Result Bytes → Writing", Some("given")),
            ("abbrev pub ◌⊞◌ : ℕ → ℕ → ℕ", Some("◌⊞◌")),
            ("pub decode-encode : {w : ℕ} → w ≡ w", Some("decode-encode")),
            ("    local : ℕ", None),
            ("letter_L = 0x4c", None),
            ("-- letter_N : a comment", None),
            ("    record { least = 1 }", None),
        ];
        for (line, name) in cases {
            assert_eq!(declared_in_logic(line), name, "{line}");
        }
    }

    #[test]
    fn functions_types_and_clauses_are_declared() {
        let cases = [
            ("pub fn read(log: &[u8]) -> Reading", Some("read")),
            ("pub extern \"C\" fn hash(", Some("hash")),
            ("    pub(crate) fn below(self)", Some("below")),
            ("pub struct TimeKey(pub u64);", Some("TimeKey")),
            ("    ensures result { result ≡ given m }", Some("result")),
            ("    ensures* result { sem result }", Some("result")),
            ("    ensures { result ≡ given m }", None),
            ("    requires { result ≡ given m }", None),
            ("// fn gone()", None),
            ("    read(log)", None),
        ];
        for (line, name) in cases {
            assert_eq!(declared_in_code(line), name, "{line}");
        }
    }

    #[test]
    fn a_test_is_marked_as_one() {
        let repository = Repository::of(&[("rust/a/tests/b.rs", "fn helper() {}\n\n#[test]\nfn tried() {}\nfn after() {}\n")]);
        let has = |name| repository.has_test("rust/a/tests/b.rs", name);
        assert!(has("tried") && !has("helper") && !has("after") && !has("gone"));
    }

    #[test]
    fn a_path_may_lack_its_beginning_and_its_ending() {
        let repository = Repository::of(&[("crates/log_reader/specs/Reading.antt", ""), ("rust/viewer/tests/log.rs", ""), ("test", "")]);
        for written in ["crates/log_reader", "log_reader/specs/Reading", "specs/Reading.antt", "specs/", "viewer/tests/log", "rust/viewer", "./test"] {
            assert!(repository.find(written).is_some(), "{written}");
        }
        for written in ["log_reader/specs/Writing", "viewer/tests/lo", "specs/Read", "tests"] {
            assert_eq!(repository.find(written), None, "{written}");
        }
    }
}
