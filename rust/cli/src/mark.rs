//! Marks participants' programs: questions about logs of rising size, each answer held to the proved check.

use std::fs;
use std::io;
use std::path::Path;
use std::time::Instant;

use reference::random::Random;

use crate::asked::Asked;
use crate::calls;
use crate::command::Words;
use crate::difference;
use crate::failure::{Done, Failure};
use crate::files;
use crate::host::Host;
use crate::hosts::{self, Hosts};
use crate::json;
use crate::sample;
use crate::seed;
use crate::tally::{Marked, Tally, HEADING};
use crate::textlog;

/// The sizes of the logs, in records, and how often each direction is asked for each.
const SIZES: [usize; 8] = [1, 2, 4, 16, 64, 256, 1024, 4096];
const TIMES: usize = 4;

/// The first answer of a program that was not accepted.
struct Fault {
    log: Vec<u8>,
    asked: Asked,
    /// None if there was no answer.
    answer: Option<Vec<u8>>,
    said: String,
}

pub fn run(words: &Words) -> Done {
    let hosts = hosts::of(words)?;
    let seed = seed::of(words)?;
    let keep = words.option("--keep").map(Path::new);
    match hosts {
        Hosts::One(host) if words.option("--json").is_some() => in_json(&[host], seed, keep),
        Hosts::Class(hosts) if words.option("--json").is_some() => in_json(&hosts, seed, keep),
        Hosts::One(host) => one(&host, seed, keep),
        Hosts::Class(hosts) => class(&hosts, seed, keep),
    }
}

/// The programs' tallies for a program to read, all at the end.
fn in_json(hosts: &[Host], seed: u64, keep: Option<&Path>) -> Done {
    let (mut full, mut told) = (0, Vec::new());
    for host in hosts {
        let mut fields = vec![("host", json::text(&host.name))];
        match of_class(host, seed, keep) {
            Err(Failure::Use(reason)) => fields.push(("not_started", json::text(&reason))),
            Err(failure) => return Err(failure),
            Ok((all, fault)) => {
                full += usize::from(fault.is_none());
                fields.extend(all.fields());
                fields.extend(fault.map(|fault| ("said", json::text(&fault.said))));
            }
        }
        told.push(json::object(fields));
    }
    let text = json::object([("seed", json::text(&seed.to_string())), ("hosts", json::list(told.into_iter()))]);
    match full == hosts.len() {
        true => files::write("-", format!("{text}\n").as_bytes()),
        false => Err(Failure::Answer(text)),
    }
}

/// All questions to one program of several, and what is kept of its first fault.
fn of_class(host: &Host, seed: u64, keep: Option<&Path>) -> Result<(Tally, Option<Fault>), Failure> {
    is_there(host)?;
    let (all, first) = marked(host, seed, true, |_, _| Ok(()))?;
    if let (Some(fault), Some(folder)) = (&first, keep) {
        fault.keep(&folder.join(host.name.replace('/', "_")))?;
    }
    Ok((all, first))
}

/// One program: a line a log, and what is said of its first answer that was not accepted.
fn one(host: &Host, seed: u64, keep: Option<&Path>) -> Done {
    let mut heading = format!("seed {seed}\n{:>8}{HEADING}\n", "records");
    let (all, first) = marked(host, seed, false, |size, tally| {
        files::write("-", (std::mem::take(&mut heading) + &tally.line(&format!("{size:>8}"))).as_bytes())
    })?;
    files::write("-", all.line(&format!("{:>8}", "all")).as_bytes())?;
    let Some(fault) = first else { return Ok(()) };
    keep.map_or(Ok(()), |folder| fault.keep(folder))?;
    Err(Failure::Answer(fault.said))
}

/// Several programs, with the same questions for all: a line each.
fn class(hosts: &[Host], seed: u64, keep: Option<&Path>) -> Done {
    let width = hosts.iter().map(|host| host.name.chars().count()).max().unwrap_or(0);
    files::write("-", format!("seed {seed}\n{:<width$}{HEADING}\n", "host").as_bytes())?;
    let mut full = 0;
    for host in hosts {
        let name = format!("{:<width$}", host.name);
        let line = match of_class(host, seed, keep) {
            Err(Failure::Use(reason)) => format!("{name}  not started: {reason}\n"),
            Err(failure) => return Err(failure),
            Ok((all, first)) => {
                full += usize::from(first.is_none());
                all.line(&name)
            }
        };
        files::write("-", line.as_bytes())?;
    }
    let said = format!("{full} of {} have full marks", hosts.len());
    match full == hosts.len() {
        true => files::write("-", format!("{said}\n").as_bytes()),
        false => Err(Failure::Answer(said)),
    }
}

/// A file that another program is to start has to be there: else that one fails for each question, and nobody sees why.
fn is_there(host: &Host) -> Done {
    match host.words.len() == 1 || Path::new(&host.name).is_file() {
        true => Ok(()),
        false => Err(Failure::Use(format!("{}: there is no such file", host.name))),
    }
}

/// All questions to one program. Each log's tally is handed on as soon as it is there.
fn marked(host: &Host, seed: u64, quiet: bool, mut each: impl FnMut(usize, &Tally) -> Done) -> Result<(Tally, Option<Fault>), Failure> {
    let (mut random, mut all, mut first) = (Random::new(seed), Tally::default(), None);
    for size in SIZES {
        let tally = round(host, &mut random, size, quiet, &mut first)?;
        each(size, &tally)?;
        all.add_all(&tally);
    }
    Ok((all, first))
}

/// All questions about one log. What the program writes to standard error is shown up to its first answer that is not accepted.
fn round(host: &Host, random: &mut Random, size: usize, quiet: bool, first: &mut Option<Fault>) -> Result<Tally, Failure> {
    let sample = sample::log(random, size);
    let log = textlog::to_bytes(sample.text.as_bytes()).map_err(Failure::Use)?;
    let commitment = calls::commitment(&log).map_err(|refusal| Failure::Log(refusal.to_string()))?;
    let mut tally = Tally::default();
    for asked in (0..TIMES).flat_map(|_| sample::questions(random, &sample)) {
        let start = Instant::now();
        let answer = host.ask(&asked, &log, quiet || first.is_some())?;
        let time = start.elapsed();
        let marked = match answer {
            Err(reason) => Marked::Failed(reason),
            Ok(answer) => match calls::checked(&asked, &commitment, &answer) {
                Ok(_) => Marked::Accepted,
                Err(refusal) => Marked::Refused(answer, refusal),
            },
        };
        tally.add(&marked, time);
        if first.is_none() {
            *first = Fault::of(marked, asked, &log, size);
        }
    }
    Ok(tally)
}

impl Fault {
    /// None if the answer was accepted.
    fn of(marked: Marked, asked: Asked, log: &[u8], size: usize) -> Option<Fault> {
        let (reason, answer) = match marked {
            Marked::Accepted => return None,
            Marked::Failed(reason) => (reason, None),
            Marked::Refused(answer, refusal) => {
                let truth = calls::answer(&asked, log).ok()?;
                let difference = difference::said(&answer, &truth)?;
                (format!("{}\nfirst difference from the true answer: {difference}", refusal), Some(answer))
            }
        };
        let said = format!("first not accepted: {asked}, log of size {size}: {reason}");
        Some(Fault { log: log.to_vec(), asked, answer, said })
    }

    /// Writes the log, the question in the program's words, the answer if there is one, and what is said of it.
    fn keep(&self, folder: &Path) -> Done {
        self.kept(folder).map_err(|reason| Failure::Use(format!("{}: {reason}", folder.display())))
    }

    fn kept(&self, folder: &Path) -> io::Result<()> {
        fs::create_dir_all(folder)?;
        fs::write(folder.join("log"), &self.log)?;
        fs::write(folder.join("question"), format!("{}\n", self.asked.words().join(" ")))?;
        fs::write(folder.join("said"), format!("{}\n", self.said))?;
        let answer = folder.join("answer");
        match &self.answer {
            Some(bytes) => fs::write(answer, bytes),
            // one of an earlier mark would be taken for this one's
            None if answer.exists() => fs::remove_file(answer),
            None => Ok(()),
        }
    }
}
