//! The names in a document, and whether the repository has what they mean.
//!
//! A passage names places: files, crates, and modules of definitions or proofs. A name without a place stands in one that its passage names.

use crate::markdown::Passage;
use crate::quotations::unquoted;
use crate::repository::Repository;

/// Where names stand.
#[derive(Clone, Debug, PartialEq, Eq)]
enum Place {
    /// A file or a folder.
    Path(String),
    Crate(String),
    /// The files of a module, definitions and proofs.
    Module(Vec<String>),
}

/// A passage cut up.
#[derive(Clone, Debug, PartialEq, Eq)]
enum Token {
    Code(String),
    Word(String),
    /// A comma, semicolon, colon, parenthesis or full stop; `and` is a comma.
    Mark(char),
}

/// Which names are checked.
#[derive(Clone, Copy, PartialEq, Eq)]
pub enum Checked {
    /// All in code, and those that stand in lists.
    All,
    /// In code, those that say themselves where they stand: paths, `crate::name` and `Module.name`.
    WithPlace,
}

/// How many names were found, and what is wrong with them.
#[derive(Debug, Default)]
pub struct Found {
    pub names: usize,
    pub wrong: Vec<String>,
}

/// The names of some passages. What `no_names` has is code that names nothing in the repository.
pub fn names(repository: &Repository, passages: &[Passage], checked: Checked, no_names: &[&str]) -> Found {
    let mut found = Found::default();
    for passage in passages {
        let cells: Vec<Vec<Token>> = passage.cells.iter().map(|cell| tokens(&unquoted(cell))).collect();
        let mut reader = Reader { repository, checked, no_names, places: Vec::new(), only: None, found: Found::default() };
        reader.places = cells.concat().iter().filter_map(|token| reader.place(token)).rev().collect();
        cells.iter().for_each(|cell| reader.cell(cell));
        found.names += reader.found.names;
        found.wrong.extend(reader.found.wrong.into_iter().map(|wrong| format!("line {}: {wrong}", passage.line)));
    }
    found
}

fn tokens(text: &str) -> Vec<Token> {
    let mut tokens = Vec::new();
    for (place, part) in text.replace("**", "").split('`').enumerate() {
        if place % 2 == 1 {
            tokens.push(Token::Code(part.to_string()));
        } else {
            without_targets(part).split_whitespace().for_each(|word| push_word(word, &mut tokens));
        }
    }
    tokens
}

/// A text with the words of its links, and without where they lead.
fn without_targets(text: &str) -> String {
    let mut parts = text.split("](");
    let first = parts.next().unwrap_or("").to_string();
    let rest = parts.map(|part| part.split_once(')').map_or(part, |(_, after)| after));
    rest.fold(first, |text, part| text + part).replace('[', "")
}

/// A word, and the marks on both sides of it.
fn push_word(word: &str, tokens: &mut Vec<Token>) {
    const MARKS: [char; 6] = [',', ';', ':', '.', '(', ')'];
    let start = word.trim_start_matches(MARKS);
    let middle = start.trim_end_matches(MARKS);
    tokens.extend(word[..word.len() - start.len()].chars().map(Token::Mark));
    match middle {
        "" => {}
        "and" => tokens.push(Token::Mark(',')),
        _ => tokens.push(Token::Word(middle.to_string())),
    }
    tokens.extend(start[middle.len()..].chars().map(Token::Mark));
}

/// `Module.name`; the name of a module begins with a capital letter.
fn dotted(word: &str) -> Option<(&str, &str)> {
    let (module, name) = word.split_once('.')?;
    let is_module = module.starts_with(|letter: char| letter.is_ascii_uppercase()) && module.chars().all(char::is_alphanumeric);
    (is_module && !["", "md", "antt"].contains(&name)).then_some((module, name))
}

/// The path that a piece of code begins with; what stands for any name is none.
fn path(code: &str) -> Option<&str> {
    let word = code.split_whitespace().next()?;
    let is_pattern = word.contains('*') || word.split(['/', '·']).any(|part| ["NAME", "DIR", "target"].contains(&part));
    (word.contains('/') && !is_pattern).then_some(word)
}

/// A word that is no word of the language: it has a hyphen, an underscore or a capital letter.
fn is_name(word: &str) -> bool {
    word.starts_with(char::is_alphabetic) && word.contains(|letter: char| letter == '-' || letter == '_' || letter.is_uppercase())
}

/// Whether a token stands between two marks.
fn is_alone(tokens: &[Token], at: usize) -> bool {
    let is_mark = |token: Option<&Token>| matches!(token, None | Some(Token::Mark(_)));
    is_mark(at.checked_sub(1).map(|before| &tokens[before])) && is_mark(tokens.get(at + 1))
}

struct Reader<'a> {
    repository: &'a Repository,
    checked: Checked,
    no_names: &'a [&'a str],
    /// The places that the passage names; those that were read stand at the end.
    places: Vec<Place>,
    /// The place before a colon, in which all names of the list behind it stand.
    only: Option<Place>,
    found: Found,
}

impl Reader<'_> {
    /// Reads a cell. In a list that a place begins, a word between two marks is a name; behind a name and a colon no list goes on.
    fn cell(&mut self, tokens: &[Token]) {
        let (mut listed, mut depth) = (false, 0);
        for (at, token) in tokens.iter().enumerate() {
            match token {
                Token::Mark('(') => depth += 1,
                Token::Mark(')') => depth -= 1,
                Token::Mark(':') => {
                    let begins = at > 0 && self.begins_list(&tokens[at - 1]);
                    listed &= begins;
                    self.only = self.places.last().filter(|_| begins).cloned();
                }
                Token::Mark(mark) => listed &= *mark != '.',
                Token::Code(code) => self.code(code),
                Token::Word(word) if self.checked == Checked::All => self.word(word, is_alone(tokens, at), listed && depth == 0),
                Token::Word(_) => {}
            }
            let place = self.place(token);
            if place.is_some() || matches!(token, Token::Mark(';' | '.' | ')')) || at + 1 == tokens.len() {
                self.only = None;
            }
            listed |= place.is_some();
            self.places.extend(place);
        }
    }

    /// The place that a token names.
    fn place(&self, token: &Token) -> Option<Place> {
        let (Token::Code(word) | Token::Word(word)) = token else { return None };
        let files = self.module(dotted(word).map_or(word, |(module, _)| module));
        if !files.is_empty() {
            return Some(Place::Module(files));
        }
        if matches!(token, Token::Word(_)) || self.no_names.contains(&&word[..]) {
            return None;
        }
        let owner = word.split_once("::").map_or(&word[..], |(owner, _)| owner);
        match path(word) {
            Some(path) => self.repository.find(path).map(Place::Path),
            None => self.repository.crates().contains(&owner).then(|| Place::Crate(owner.to_string())),
        }
    }

    /// A place before a colon, but not a name with its place.
    fn begins_list(&self, token: &Token) -> bool {
        matches!(token, Token::Code(word) | Token::Word(word) if dotted(word).is_none()) && self.place(token).is_some()
    }

    /// The files of a module: of `model` and of the crates that the passage names, or if none of them has it, of any crate.
    fn module(&self, name: &str) -> Vec<String> {
        let named = self.places.iter().filter_map(|place| match place {
            Place::Crate(owner) => Some(&owner[..]),
            Place::Path(path) => path.strip_prefix("crates/")?.split('/').next(),
            Place::Module(_) => None,
        });
        let files = self.repository.modules(&named.chain(["model"]).collect::<Vec<_>>(), name);
        if files.is_empty() { self.repository.modules(&self.repository.crates(), name) } else { files }
    }

    fn code(&mut self, code: &str) {
        if self.no_names.contains(&code) {
            return;
        }
        if let Some(path) = path(code) {
            self.count(path, self.repository.find(path).is_some());
        } else if let Some((owner, name)) = code.split_once("::") {
            let folders = [format!("crates/{owner}/src"), format!("rust/{owner}/src")];
            self.count(code, folders.iter().any(|folder| self.repository.declares(folder, name)));
        } else if let Some((module, name)) = dotted(code) {
            self.in_module(module, name);
        } else if self.checked == Checked::All {
            let folder = ["crates", "rust"].iter().any(|folder| self.repository.below(&format!("{folder}/{code}")).next().is_some());
            self.count(code, self.is_in_a_place(code) || folder || self.repository.declares("crates/bozhtagul/src", code));
        }
    }

    fn word(&mut self, word: &str, alone: bool, listed: bool) {
        if word.ends_with(".md") {
            self.count(word, self.repository.find(word).or(self.repository.find(&format!("docs/{word}"))).is_some());
        } else if let Some((module, name)) = dotted(word) {
            self.in_module(module, name);
        } else if alone && (is_name(word) || listed) && word.starts_with(char::is_alphabetic) {
            self.count(word, !self.module(word).is_empty() || self.is_in_a_place(word));
        }
    }

    fn in_module(&mut self, module: &str, name: &str) {
        let declared = self.module(module).iter().any(|file| self.repository.declares(file, name));
        self.count(&format!("{module}.{name}"), declared);
    }

    fn count(&mut self, name: &str, is_there: bool) {
        self.found.names += 1;
        if !is_there {
            self.found.wrong.push(format!("there is no {name}"));
        }
    }

    fn is_in_a_place(&self, name: &str) -> bool {
        match &self.only {
            Some(place) => self.holds(place, name),
            None => self.places.iter().rev().any(|place| self.holds(place, name)),
        }
    }

    /// Whether a name stands in a place: is declared there, or is a test of a Rust file, a file beside it or below it, or a crate's must-fail
    /// edit.
    fn holds(&self, place: &Place, name: &str) -> bool {
        let repository = self.repository;
        match place {
            Place::Module(files) => files.iter().any(|file| repository.declares(file, name)),
            Place::Crate(owner) => {
                let declared = ["src", "specs", "proofs"].iter().any(|part| repository.declares(&format!("crates/{owner}/{part}"), name));
                let wrong = ["must-fail", "must-fail/more"].iter().any(|folder| repository.is_there(&format!("crates/{owner}/{folder}/{name}.edit")));
                declared || wrong
            }
            Place::Path(path) => {
                let folder = path.rsplit_once('/').map_or("", |(folder, _)| folder);
                let beside = [folder, path].iter().any(|folder| repository.find(&format!("{folder}/{name}")).is_some());
                let is_rust = path.ends_with(".rs");
                beside || if is_rust { repository.has_test(path, name) } else { repository.declares(path, name) }
            }
        }
    }
}

#[cfg(test)]
mod tests {
    use super::*;
    use crate::markdown::passages;

    fn repository() -> Repository {
        Repository::of(&[
            ("crates/model/specs/Graph.antt", "pub record Version : Type 0 where\n  pub time : ℕ\nabbrev pub in_edges : ℕ\n"),
            ("crates/model/must-fail/no_edge.edit", ""),
            ("crates/log_reader/specs/Reading.antt", "pub reading_of : ℕ\n"),
            ("crates/log_reader/src/lib.rt", "pub fn read(log: &[u8]) -> Reading\n    ensures result { result ≡ 0 }\nfn next() -> u64\n"),
            ("crates/bozhtagul/src/lib.rt", "pub extern \"C\" fn bozhtagul_log(log: &[u8])\n"),
            ("rust/viewer/tests/log.rs", "fn helper() {}\n#[test]\nfn by_hand() {}\n"),
            ("rust/viewer/tests/check.rs", ""),
            ("docs/PROMISES.md", ""),
        ])
    }

    fn read(text: &str, checked: Checked) -> Found {
        names(&repository(), &passages(text), checked, &["&mut"])
    }

    #[test]
    fn what_is_there_is_found() {
        let texts = [
            ("Graph.Version, in_edges, time; `log_reader::read`, `next` (`result`)", 6),
            ("`log_reader/specs/Reading`: reading_of, by PROMISES.md and `bozhtagul_log`", 4),
            ("`viewer/tests/log`, `check`; `viewer/tests/log`: `by_hand` (lent by `&mut`)", 4),
            ("must-fail of `model`: no_edge", 2),
            ("`reading_of` of the crate `log_reader`", 2),
            ("Graph.time: every version has one, place, count and all", 1),
            ("| `log_reader::read` | a sentence of words | Graph |", 2),
        ];
        for (text, count) in texts {
            let found = read(text, Checked::All);
            assert_eq!((found.names, found.wrong), (count, vec![]), "{text}");
        }
    }

    #[test]
    fn what_is_not_there_is_reported() {
        let texts = [
            ("Graph.Vertex", "Graph.Vertex"),
            ("Graph.Version, out_edges", "out_edges"),
            ("Graph.Version, place", "place"),
            ("Grape.Version", "Grape.Version"),
            ("Reading.in_edges", "Reading.in_edges"),
            ("`log_reader::write`", "log_reader::write"),
            ("`log_reader::read`, `write`", "write"),
            ("`log_reader::read` (`output`)", "output"),
            ("`log_reader/specs/Writing`", "log_reader/specs/Writing"),
            ("`viewer/tests/log`: `by_chance`", "by_chance"),
            ("`viewer/tests/log`: `helper`", "helper"),
            ("`viewer/tests/log`, `answer`", "answer"),
            ("must-fail of `model`: no_edges", "no_edges"),
            ("must-fail of `log_reader`: no_edge; `model`", "no_edge"),
            ("`viewer/tests/check`: `by_hand`; `viewer/tests/log`", "by_hand"),
            ("`bozhtagul_hash`", "bozhtagul_hash"),
            ("see OATHS.md", "OATHS.md"),
            ("| `log_reader::read` | a\n| `no_edge` |", "no_edge"),
        ];
        for (text, name) in texts {
            assert_eq!(read(text, Checked::All).wrong.len(), 1, "{text}");
            assert!(read(text, Checked::All).wrong[0].ends_with(&format!("there is no {name}")), "{text}");
        }
    }

    #[test]
    fn elsewhere_only_names_with_their_place_are_checked() {
        let found = read("`log_reader::read`, `Graph.time`, `log_reader/specs`, `fuzz`, an out-edge; `proofs/NAME/Proof.antt`, `x/*.edit`", Checked::WithPlace);
        assert_eq!((found.names, found.wrong), (3, vec![]));
        for text in ["`log_reader::write`", "`Graph.place`", "`log_reader/proofs`", "`viewer/tests/answer --all`"] {
            assert_eq!(read(text, Checked::WithPlace).wrong.len(), 1, "{text}");
        }
    }
}
