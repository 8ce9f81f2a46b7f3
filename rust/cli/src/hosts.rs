//! Which programs are marked.

use std::fs;
use std::io;
use std::path::Path;
use std::time::Duration;

use crate::command::Words;
use crate::failure::Failure;
use crate::host::Host;

/// A program that is marked by itself, or a class of which each has a line.
pub enum Hosts {
    One(Host),
    Class(Vec<Host>),
}

/// The programs named. The words after `--` stand before each; if none is named, they are the program.
pub fn of(words: &Words) -> Result<Hosts, Failure> {
    let limit = Duration::from_secs(words.number("--limit", 10)?);
    let host = |named: Option<&String>| {
        let started: Vec<String> = words.after().iter().chain(named).cloned().collect();
        let name = named.cloned().unwrap_or_else(|| started.join(" "));
        unambiguous(&started[0]).map(|()| Host { name, words: started, limit })
    };
    match words.all_plain() {
        [] => Ok(Hosts::One(host(None)?)),
        [one] if !Path::new(one).is_dir() => Ok(Hosts::One(host(Some(one))?)),
        many => {
            let mut files = Vec::new();
            for word in many {
                files.extend(if Path::new(word).is_dir() { programs(word)? } else { vec![word.clone()] });
            }
            Ok(Hosts::Class(files.iter().map(|file| host(Some(file))).collect::<Result<_, _>>()?))
        }
    }
}

/// The programs in a folder: each file, and of each folder the file `host`, by name.
fn programs(folder: &str) -> Result<Vec<String>, Failure> {
    let wrong = |reason: io::Error| Failure::Use(format!("{folder}: {reason}"));
    let mut names = Vec::new();
    for entry in fs::read_dir(folder).map_err(wrong)? {
        let name = entry.map_err(wrong)?.file_name();
        let name = name.into_string().map_err(|name| Failure::Use(format!("{folder}: {name:?} is not UTF-8 text")))?;
        let path = format!("{}/{name}", folder.trim_end_matches('/'));
        if !name.starts_with('.') {
            names.push(if Path::new(&path).is_dir() { format!("{path}/host") } else { path });
        }
    }
    names.sort();
    match names.is_empty() {
        true => Err(Failure::Use(format!("{folder}: there is no program in this folder"))),
        false => Ok(names),
    }
}

/// A file of the current folder has to be named with `./`: without it the system would start another program, or none.
fn unambiguous(program: &str) -> Result<(), Failure> {
    if program.contains('/') || !Path::new(program).is_file() {
        return Ok(());
    }
    Err(Failure::Use(format!("{program}: the file in this folder is ./{program}; without './' a program is looked for in the search path")))
}
