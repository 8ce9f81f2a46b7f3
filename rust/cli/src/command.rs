//! The form of a command, and the words that it is given.

use viewer::{Question, Span};

use crate::args::{asks_help, direction, is_between, number};
use crate::asked::Asked;
use crate::failure::{Done, Failure};

/// The options that are followed by a word; the others stand alone.
const WITH_WORD: [&str; 7] = ["-o", "--svg", "--html", "--names", "--seed", "--limit", "--keep"];

pub struct Command {
    /// One word, or two of which the second is an option.
    pub name: &'static str,
    /// The words that have to follow the name. A last one with two dots stands for one or more, and then those after `--` are apart. One in
    /// brackets goes with a DIRECTION of all versions between two times, and with no other.
    pub words: &'static str,
    pub options: &'static [&'static str],
    /// The options as the help shows them.
    pub shown: &'static str,
    pub about: &'static str,
    pub details: &'static str,
    pub run: fn(&Words) -> Done,
}

impl Command {
    pub fn usage(&self) -> String {
        let parts = ["bozhtagul", self.name, self.words, self.shown];
        parts.into_iter().filter(|part| !part.is_empty()).collect::<Vec<_>>().join(" ")
    }

    fn takes_many(&self) -> bool {
        self.words.ends_with("..")
    }

    /// The words due, of those that are given: with one in brackets or without.
    fn due(&self, given: &Words) -> usize {
        let words: Vec<&str> = self.words.split_whitespace().collect();
        let direction = words.iter().position(|word| *word == "DIRECTION").and_then(|place| given.plain.get(place));
        match direction {
            Some(word) if is_between(word) => words.len(),
            _ => words.iter().filter(|word| !word.starts_with('[')).count(),
        }
    }

    /// What follows the command's name, if the words begin with it.
    pub fn after_name<'a>(&self, words: &'a [String]) -> Option<&'a [String]> {
        let name: Vec<&str> = self.name.split(' ').collect();
        let (first, rest) = words.split_at_checked(name.len())?;
        (first == name).then_some(rest)
    }
}

/// The words after a command's name: those without a dash in order, the options with what follows them, and those after `--` if they are
/// apart.
#[derive(Debug, Default, PartialEq, Eq)]
pub struct Words {
    plain: Vec<String>,
    after: Vec<String>,
    options: Vec<(String, String)>,
}

impl Words {
    pub fn plain(&self, place: usize) -> &str {
        &self.plain[place]
    }

    pub fn all_plain(&self) -> &[String] {
        &self.plain
    }

    /// The last word without a dash.
    pub fn last(&self) -> &str {
        &self.plain[self.plain.len() - 1]
    }

    /// The words after `--`, of a command that takes one word or more.
    pub fn after(&self) -> &[String] {
        &self.after
    }

    /// What follows an option, if it is there; empty if the option stands alone.
    pub fn option(&self, name: &str) -> Option<&str> {
        self.options.iter().rev().find(|(given, _)| given == name).map(|(_, value)| value.as_str())
    }

    /// Where the result goes: `-o FILE`, else standard output.
    pub fn output(&self) -> &str {
        self.option("-o").unwrap_or("-")
    }

    /// The number that follows an option, or what it is without the option.
    pub fn number(&self, name: &str, without: u64) -> Result<u64, Failure> {
        self.option(name).map_or(Ok(without), |word| number(name, word))
    }

    /// The question in words from a place on: direction, entity and time and, between two times, the later one.
    pub fn asked(&self, place: usize) -> Result<Asked, Failure> {
        let word = self.plain(place);
        let direction = if is_between(word) { None } else { Some(direction(word)?) };
        let entity = number("ENTITY", self.plain(place + 1))?;
        let time = number("TIME", self.plain(place + 2))?;
        match direction {
            Some(direction) => Ok(Asked::One(Question { direction, entity, time })),
            None => span(entity, time, number("UNTIL", self.plain(place + 3))?),
        }
    }
}

/// A span. The calls would meet row 25 if its later time stood first.
fn span(entity: u32, from: u64, until: u64) -> Result<Asked, Failure> {
    if from > until {
        return Err(Failure::Use(format!("TIME {from} is above UNTIL {until}")));
    }
    Ok(Asked::All(Span { entity, from, until }))
}

/// The words of a command, or none if its help is asked for. After `--` no word is an option; those of a command that takes one word or
/// more are kept apart there.
pub fn read(command: &Command, given: &[String]) -> Result<Option<Words>, Failure> {
    let wrong = |what: String| Failure::Use(format!("{what}\nusage: {}", command.usage()));
    let mut words = Words::default();
    let mut rest = given.iter();
    while let Some(word) = rest.next() {
        if asks_help(word) {
            return Ok(None);
        } else if word == "--" {
            let apart = if command.takes_many() { &mut words.after } else { &mut words.plain };
            apart.extend(rest.by_ref().cloned());
        } else if word == "-" || !word.starts_with('-') {
            words.plain.push(word.clone());
        } else if !command.options.contains(&word.as_str()) {
            return Err(wrong(format!("{} has no option '{word}'", command.name)));
        } else if WITH_WORD.contains(&word.as_str()) {
            let value = rest.next().ok_or_else(|| wrong(format!("a word has to follow '{word}'")))?;
            words.options.push((word.clone(), value.clone()));
        } else {
            words.options.push((word.clone(), String::new()));
        }
    }
    counted(command, &words).map_err(wrong)?;
    Ok(Some(words))
}

/// Whether a command takes that many words.
fn counted(command: &Command, words: &Words) -> Result<(), String> {
    let (due, given) = (command.due(words), words.plain.len() + words.after.len());
    let least = command.due(&Words::default());
    let between = if due > least { " with 'between'" } else { "" };
    match command.takes_many() {
        false if given == due + 1 && command.words.contains("[UNTIL]") && due == least => {
            Err(format!("{} takes {due} words, {given} were given (UNTIL goes with 'between' alone)", command.name))
        }
        false if given != due => Err(format!("{}{between} takes {due} words, {given} were given", command.name)),
        true if given < due => Err(format!("{} takes {due} words or more, {given} were given", command.name)),
        _ => Ok(()),
    }
}

#[cfg(test)]
mod tests {
    use super::*;
    use viewer::Direction;

    const COMMIT: Command =
        Command { name: "commit", words: "LOG", options: &["--raw", "-o"], shown: "", about: "", details: "", run: |_| Ok(()) };
    const ANSWER: Command = Command { name: "answer", words: "LOG DIRECTION ENTITY TIME [UNTIL]", options: &["-o"], ..COMMIT };

    fn words(command: &Command, given: &[&str]) -> Result<Option<Words>, Failure> {
        read(command, &given.iter().map(|word| word.to_string()).collect::<Vec<_>>())
    }

    #[test]
    fn options_stand_anywhere_and_the_last_counts() {
        let read = words(&ANSWER, &["-o", "a", "log", "1", "-o", "b", "2", "3"]).unwrap().unwrap();
        assert_eq!(read.output(), "b");
        assert_eq!(read.plain(0), "log");
        let question = Question { direction: Direction::Backward, entity: 2, time: 3 };
        assert_eq!(read.asked(1), Ok(Asked::One(question)));
    }

    #[test]
    fn between_two_times_there_is_one_word_more() {
        for direction in ["between", "6"] {
            let read = words(&ANSWER, &["log", direction, "2", "3", "4"]).unwrap().unwrap();
            assert_eq!(read.asked(1), Ok(Asked::All(Span { entity: 2, from: 3, until: 4 })));
            assert_eq!(read.last(), "4");
            let crossed = words(&ANSWER, &["log", direction, "2", "5", "4"]).unwrap().unwrap();
            assert_eq!(crossed.asked(1), Err(Failure::Use("TIME 5 is above UNTIL 4".into())));
        }
        for (given, said) in [
            (&["log", "between", "2", "3"][..], "answer with 'between' takes 5 words, 4 were given\n"),
            (&["log", "backward", "2", "3", "4"], "answer takes 4 words, 5 were given (UNTIL goes with 'between' alone)\n"),
            (&["log", "between", "2", "3", "4", "5"], "answer with 'between' takes 5 words, 6 were given\n"),
            (&["log"], "answer takes 4 words, 1 were given\n"),
        ] {
            assert!(matches!(words(&ANSWER, given), Err(Failure::Use(text)) if text.starts_with(said)), "{given:?}");
        }
    }

    #[test]
    fn after_two_dashes_no_word_is_an_option() {
        let read = words(&COMMIT, &["--", "-o"]).unwrap().unwrap();
        assert_eq!((read.plain(0), read.output()), ("-o", "-"));
    }

    #[test]
    fn the_words_after_two_dashes_are_apart_if_there_may_be_many() {
        let mark = Command { name: "mark", words: "HOST..", ..COMMIT };
        let read = words(&mark, &["a", "b", "-o", "f", "--", "python3", "-o", "--"]).unwrap().unwrap();
        assert_eq!((read.all_plain().join(" ").as_str(), read.output()), ("a b", "f"));
        assert_eq!(read.after(), ["python3", "-o", "--"]);
        assert!(words(&mark, &["--", "a"]).is_ok());
        for none in [&[][..], &["--"]] {
            assert!(matches!(words(&mark, none), Err(Failure::Use(text)) if text.starts_with("mark takes 1 words or more, 0 were given")));
        }
    }

    #[test]
    fn wrong_words_are_said() {
        for (given, said) in [
            (&["a", "b"][..], "commit takes 1 words, 2 were given"),
            (&[], "commit takes 1 words, 0 were given"),
            (&["--svg", "f", "a"], "commit has no option '--svg'"),
            (&["a", "-o"], "a word has to follow '-o'"),
        ] {
            match words(&COMMIT, given) {
                Err(Failure::Use(text)) => assert!(text.starts_with(said), "{text}"),
                other => panic!("{given:?}: {other:?}"),
            }
        }
        assert_eq!(words(&COMMIT, &["a", "--help"]), Ok(None));
    }
}
