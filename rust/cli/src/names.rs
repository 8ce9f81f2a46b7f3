//! Names for showing: of entities and kinds, and how times are read. They stand beside a log and are no part of what is checked.

use std::collections::BTreeMap;

use crate::args::number;
use crate::failure::Failure;
use crate::files;
use crate::json;

#[derive(Debug, Default, PartialEq, Eq)]
pub struct Names {
    entities: BTreeMap<u32, String>,
    kinds: BTreeMap<u8, String>,
    /// Times are seconds since 1970.
    unix: bool,
}

impl Names {
    /// A line each: `entity NUMBER NAME`, `kind NUMBER NAME` or `time unix`; what follows '#' is a comment.
    pub fn read(file: &str) -> Result<Names, Failure> {
        let bytes = files::read(file)?;
        let text = String::from_utf8(bytes).map_err(|_| Failure::Use(format!("{file}: this is no text")))?;
        let mut names = Names::default();
        for (place, line) in text.lines().enumerate() {
            let wrong = |what: &str| Failure::Use(format!("{file}: line {}: {what}", place + 1));
            names.take(line.split('#').next().unwrap_or("").trim()).map_err(|what| wrong(&what))?;
        }
        Ok(names)
    }

    fn take(&mut self, line: &str) -> Result<(), String> {
        let said = |failure: Failure| match failure {
            Failure::Use(text) | Failure::Answer(text) | Failure::Log(text) => text,
        };
        let mut words = line.splitn(3, char::is_whitespace);
        match (words.next().unwrap_or(""), words.next(), words.next().map(str::trim)) {
            ("", None, None) => {}
            ("time", Some("unix"), None) => self.unix = true,
            ("entity", Some(word), Some(name)) => drop(self.entities.insert(number("an entity", word).map_err(said)?, name.to_string())),
            ("kind", Some(word), Some(name)) => drop(self.kinds.insert(number("a kind", word).map_err(said)?, name.to_string())),
            _ => return Err("neither 'entity NUMBER NAME', 'kind NUMBER NAME' nor 'time unix'".to_string()),
        }
        Ok(())
    }

    pub fn json(&self) -> String {
        let named = |number: String, name: &String| format!("{}:{}", json::text(&number), json::text(name));
        let all = |pairs: Vec<String>| format!("{{{}}}", pairs.join(","));
        json::object([
            ("entity", all(self.entities.iter().map(|(entity, name)| named(entity.to_string(), name)).collect())),
            ("kind", all(self.kinds.iter().map(|(kind, name)| named(kind.to_string(), name)).collect())),
            ("time", json::text(if self.unix { "unix" } else { "" })),
        ])
    }
}

#[cfg(test)]
mod tests {
    use super::*;

    fn names(lines: &[&str]) -> Result<Names, String> {
        let mut names = Names::default();
        lines.iter().try_for_each(|line| names.take(line)).map(|()| names)
    }

    #[test]
    fn lines_are_read() {
        let names = names(&["", "entity 100 lines plan", "kind 1  reads", "time unix"]).unwrap();
        assert_eq!(names.json(), r#"{"entity":{"100":"lines plan"},"kind":{"1":"reads"},"time":"unix"}"#);
    }

    #[test]
    fn other_lines_are_refused() {
        for line in ["entity 100", "entity x plan", "kind 256 reads", "time gmt", "name 1 plan", "time unix now"] {
            assert!(names(&[line]).is_err(), "{line}");
        }
    }
}
