//! What `--help`, `help` and `--version` say. The script at the repository's root says the same without a build, from the files in `help/`.

use crate::command::Command;
use crate::commands::{called, ALL};
use crate::failure::Failure;

const WORDS: &str = "\
LOG          a log, as bytes (see 'log' for its text form)
DIRECTION    only, backward or forward, of the last version at or before TIME; only-after, backward-after or forward-after, of the first
             at or after it; between, of all versions from TIME to UNTIL, both included (or 0 to 6)
ENTITY, TIME in decimal: a version of ENTITY is sought, by TIME as DIRECTION says
UNTIL        in decimal, after between and no other DIRECTION: the later time
COMMITMENT   64 hex digits, or a file that holds them or the 32 bytes themselves
ANSWER       an answer, as bytes
STORE        a folder that 'record' keeps a log in
A file may be '-': standard input, or standard output after -o and --svg.

Exit status: 0 success; 1 an answer or a log was refused; 2 wrong words, or a file that cannot be read or written.
";

/// All commands.
pub fn all() -> String {
    let mut text = "Verifiable causality answers over an event log, by the proved library.\n\n".to_string();
    for command in ALL {
        text += &format!("  {}\n      {}\n", command.usage(), command.about);
    }
    text + "\n" + WORDS
}

/// One command.
pub fn of(command: &Command) -> String {
    format!("usage: {}\n\n{}\n{}\n{WORDS}", command.usage(), command.about, command.details)
}

pub fn version() -> String {
    format!("bozhtagul {}\n", env!("CARGO_PKG_VERSION"))
}

/// What `help` says with these words behind it: all commands, or one.
pub fn asked(words: &[String]) -> Result<String, Failure> {
    match words {
        [] => Ok(all()),
        _ => called(words).filter(|(_, rest)| rest.is_empty()).map(|(command, _)| of(command)).ok_or_else(|| no_command(&words.join(" "))),
    }
}

pub fn no_command(name: &str) -> Failure {
    Failure::Use(format!("there is no command '{name}': see bozhtagul --help"))
}

#[cfg(test)]
mod tests {
    use super::*;
    use std::path::Path;

    #[test]
    fn every_command_is_in_the_help() {
        for command in ALL {
            assert!(all().contains(&format!("  {}\n", command.usage())));
            assert!(of(command).starts_with(&format!("usage: {}\n", command.usage())));
        }
    }

    #[test]
    fn one_command_is_found_by_its_name() {
        let words = |text: &str| text.split(' ').map(String::from).collect::<Vec<_>>();
        assert_eq!(asked(&[]), Ok(all()));
        for command in ALL {
            assert_eq!(asked(&words(command.name)), Ok(of(command)));
        }
        assert_eq!(asked(&words("nothing")), Err(no_command("nothing")));
        assert_eq!(asked(&words("check more")), Err(no_command("check more")));
    }

    /// The files that the script shows are what the program says, and there are no others. With WRITE_HELP set they are written first.
    #[test]
    fn the_files_of_the_script_say_the_same() {
        let folder = Path::new(env!("CARGO_MANIFEST_DIR")).join("help");
        let mut texts: Vec<(String, String)> = ALL.iter().map(|command| (format!("{}.txt", command.name), of(command))).collect();
        texts.push(("all.txt".to_string(), all()));
        if std::env::var_os("WRITE_HELP").is_some() {
            std::fs::create_dir_all(&folder).unwrap();
            texts.iter().for_each(|(name, text)| std::fs::write(folder.join(name), text).unwrap());
        }
        for (name, text) in &texts {
            let found = std::fs::read_to_string(folder.join(name)).unwrap_or_default();
            assert_eq!(&found, text, "help/{name}: write it again with WRITE_HELP=1 cargo test -p cli help");
        }
        assert_eq!(std::fs::read_dir(&folder).unwrap().count(), texts.len());
    }
}
