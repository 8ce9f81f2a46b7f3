//! The command line over the proved library.
#![forbid(unsafe_code)]

mod args;
mod asked;
mod calls;
mod command;
mod commands;
mod demo;
mod difference;
mod digests;
mod explain;
mod failure;
mod files;
mod forge;
mod help;
mod history;
mod host;
mod hosts;
mod json;
mod lanes;
mod listing;
mod mark;
mod names;
mod page;
mod record;
mod report;
mod rows;
mod said;
mod sample;
mod seed;
mod store;
mod svg;
mod tally;
mod textlog;

use std::process::ExitCode;

use failure::{Done, Failure};

fn main() -> ExitCode {
    match args::given().and_then(|words| run(&words)) {
        Ok(()) => ExitCode::SUCCESS,
        Err(failure) => end(failure),
    }
}

/// Says a failure where it belongs, and gives its exit status.
fn end(failure: Failure) -> ExitCode {
    match failure {
        Failure::Answer(text) => match files::write("-", format!("{text}\n").as_bytes()) {
            Ok(()) => ExitCode::from(1),
            Err(failure) => end(failure),
        },
        Failure::Log(text) => said(&text, 1),
        Failure::Use(text) => said(&text, 2),
    }
}

fn said(text: &str, status: u8) -> ExitCode {
    eprintln!("bozhtagul: {}", text.trim_end());
    ExitCode::from(status)
}

/// Finds the command by its name and runs it.
fn run(words: &[String]) -> Done {
    let name = match words.first() {
        None => return Err(Failure::Use(help::all())),
        Some(name) if args::asks_help(name) => return files::write("-", help::all().as_bytes()),
        Some(name) if name == "--version" => return files::write("-", help::version().as_bytes()),
        Some(name) if name == "help" => return files::write("-", help::asked(&words[1..])?.as_bytes()),
        Some(name) => name,
    };
    let (command, rest) = commands::called(words).ok_or_else(|| help::no_command(name))?;
    match command::read(command, rest)? {
        None => files::write("-", help::of(command).as_bytes()),
        Some(words) => (command.run)(&words),
    }
}
