//! The commands, each with its words, its help and what it does.

use reference::hex::to_hex;
use viewer::{Refusal, Span, DIGEST};

use crate::args;
use crate::asked::Asked;
use crate::calls;
use crate::command::{Command, Words};
use crate::demo;
use crate::digests;
use crate::explain;
use crate::failure::{Done, Failure};
use crate::files;
use crate::forge;
use crate::history::History;
use crate::lanes;
use crate::listing;
use crate::mark;
use crate::names::Names;
use crate::page::{self, Head};
use crate::record;
use crate::report;
use crate::rows;
use crate::said::Said;
use crate::svg;
use crate::textlog;

/// The command that some words call, the one with the longest name, and what follows its name.
pub fn called(words: &[String]) -> Option<(&'static Command, &[String])> {
    let fitting = ALL.iter().filter_map(|command| Some((command, command.after_name(words)?)));
    fitting.min_by_key(|(_, rest)| rest.len())
}

pub const ALL: &[Command] = &[
    Command {
        name: "demo",
        words: "",
        options: &[],
        shown: "",
        about: "a small log from beginning to end: commitment, answers, checks, a history, and an altered answer refused",
        details: "",
        run: demo::run,
    },
    Command {
        name: "log",
        words: "FILE",
        options: &["--text", "--unsound", "-o"],
        shown: "[--text | --unsound] [-o FILE]",
        about: "a log from its text form; with --text, the text form of a log",
        details: "\
The text has a record a line: 'birth ENTITY TIME' or 'flow SOURCE DESTINATION KIND TIME', in decimal. What follows '#' is a comment,
and empty lines are passed over. Of a log that is not sound the first line that is turned away is named, with its row; with --unsound
it is written all the same.
",
        run: log,
    },
    Command {
        name: "list",
        words: "LOG",
        options: &["--all", "--json"],
        shown: "[--all] [--json]",
        about: "what the listing program prints: a line a version, for a log of at most 512 records and 9,216 bytes",
        details: "\
With --all the same lines of a log of any length, not by the proved listing but by this program. With --json all versions in JSON; times are
texts there, because many readers' numbers have 53 bits.
",
        run: list,
    },
    Command {
        name: "commit",
        words: "LOG",
        options: &["--raw", "-o"],
        shown: "[--raw] [-o FILE]",
        about: "a log's commitment as 64 hex digits; with --raw, as 32 bytes",
        details: "",
        run: commit,
    },
    Command {
        name: "record",
        words: "STORE",
        options: &["--json"],
        shown: "[--json]",
        about: "a running recorder: takes records from standard input, a line each, keeps them in STORE and answers each with the commitment",
        details: "\
STORE is a folder, which is made if it is not there. Its file 'log' is the log of all records taken, for 'commit', 'answer' and the others; its
file 'memory' is a copy of the recorder's memory, without which the next start takes longer. A line is as in a log's text form. It is answered
in its turn, and a record that is taken is on the disk before: 'taken NUMBER COMMITMENT', with the number of records and the commitment of the
log up to it; 'refused NUMBER at POSITION: CAUSE'; or 'unread: REASON'. A line without a record has no answer. A line that was not answered,
because the program was stopped, may have been taken or not: send it once more, and if it was, row 5 refuses it and nothing changes. The
status is 1 if a line was refused or could not be read. One process has a store at a time.
",
        run: record::run,
    },
    Command {
        name: "answer",
        words: "LOG DIRECTION ENTITY TIME [UNTIL]",
        options: &["-o"],
        shown: "[-o FILE]",
        about: "the answer to a question about a log, as bytes",
        details: "",
        run: answer,
    },
    Command {
        name: "ask",
        words: "LOG DIRECTION ENTITY TIME [UNTIL]",
        options: &[],
        shown: "",
        about: "commits to a log, answers a question about it, checks the answer and shows its history or list, all in one go",
        details: "",
        run: ask,
    },
    Command {
        name: "check",
        words: "COMMITMENT DIRECTION ENTITY TIME [UNTIL] ANSWER",
        options: &["--json"],
        shown: "[--json]",
        about: "what an answer says, if it is the true one; else the row that refuses it",
        details: "\
What was checked is said too: 'accepted: 2 at 35, backward: found 2 at 30, 3 records'. A list of versions follows, a line each. A refusal
is said as 'refused NUMBER at POSITION: CAUSE', with status 1.
",
        run: check,
    },
    Command {
        name: "show",
        words: "COMMITMENT DIRECTION ENTITY TIME [UNTIL] ANSWER",
        options: &["--graph", "--html", "--json", "--names", "--svg"],
        shown: "[--graph | --json] [--html FILE [--names FILE]] [--svg FILE]",
        about: "a checked answer's history or list as text, and a history as a page for a browser (--html) or a picture for print (--svg) too",
        details: "\
A line a version, by rising time, with the edges that lead to it; with --graph as lanes, one for each entity while it is in play. A list
has no edges, and is not drawn. The page needs nothing from outside and is pleasant for any number of records; the picture is, for some
hundred. Time runs down in both. With '--html -' or '--svg -' that alone is written. A file of names has a line each: 'entity NUMBER
NAME', 'kind NUMBER NAME' or 'time unix', for times that are seconds since 1970. Names are shown in the page, and are not part of what is
checked.
",
        run: show,
    },
    Command {
        name: "explain",
        words: "ANSWER",
        options: &[],
        shown: "",
        about: "any answer as a table: place, bytes, and what they are, up to the first thing that cannot be read",
        details: "\
Nothing is checked: of the letters that may stand at a place each is read, whatever the question was. What cannot be read is said in the
last line, with status 1.
",
        run: explain::run,
    },
    Command {
        name: "digests",
        words: "LOG",
        options: &[],
        shown: "",
        about: "the incoming and the outgoing path digest of each version of a log",
        details: "They are worked out by the independent Rust version: the proved library has no call that gives them.\n",
        run: digests::run,
    },
    Command {
        name: "mark",
        words: "HOST..",
        options: &["--json", "--seed", "--limit", "--keep"],
        shown: "[--json] [--seed NUMBER] [--limit SECONDS] [--keep FOLDER] [-- PROGRAM WORD..]",
        about: "runs participants' programs on made logs, and counts the answers that the check accepts",
        details: "\
HOST is run once for each question, with the direction (0 to 6), the entity and the time as its words, in direction 6 the later time too,
and the log on standard input; it writes the answer to standard output and ends with status 0, within 10 seconds or the limit given. It is
run as any program of yours is: nothing confines it. What follows '--' is put before HOST, or is the host if none is named: 'mark --
python3 host.py'.

One HOST has a line a log. Several have a line each, with the same questions for all; a folder stands for the files in it, and for the
file 'host' of each folder in it. The seed settles the logs and the questions; without one, a fresh one is drawn from the system's random
source, and the heading has it, so that the mark can be taken again. --keep writes of the first answer that was not accepted the log, the
question, the answer and what is said of it, of several hosts in a folder each. The status is 0 if all answers are accepted.
",
        run: mark::run,
    },
    Command {
        name: "mark --forge",
        words: "LOG DIRECTION ENTITY TIME [UNTIL] ANSWER",
        options: &[],
        shown: "",
        about: "whether a false answer passed the check, and then two different strings with one SHA-256 value",
        details: "\
The answer is checked against the log's commitment. If it is accepted and is not the true answer, two strings are printed in hex: one
hashed in building the commitment and one in the check. The status is 0 if a false answer passed, and 1 if it was refused or is true.
",
        run: forge::run,
    },
];

fn log(words: &Words) -> Done {
    let name = words.plain(0);
    if words.option("--text").is_some() {
        let log = files::read(name)?;
        let text = textlog::to_text(&log).map_err(|refusal| rows::refused_log(name, &refusal))?;
        if let Err(refusal) = viewer::log(&log) {
            eprintln!("bozhtagul: {}: the log is not sound: {refusal}", files::input_name(name));
        }
        return files::write(words.output(), text.as_bytes());
    }
    let text = files::read(name)?;
    let log = textlog::to_bytes(&text).map_err(|reason| Failure::Use(format!("{}: {reason}", files::input_name(name))))?;
    if let Err(refusal) = viewer::log(&log) {
        let line = textlog::line_of(&text, refusal.position).map_or(String::new(), |line| format!(" line {line}:"));
        let said = format!("{}:{line} the log is not sound: {refusal}", files::input_name(name));
        if words.option("--unsound").is_none() {
            return Err(Failure::Log(format!("{said} (--unsound writes it all the same)")));
        }
        eprintln!("bozhtagul: {said}");
    }
    files::write(words.output(), &log)
}

fn list(words: &Words) -> Done {
    let name = words.plain(0);
    let log = files::read_log(name)?;
    let refused = |refusal: Refusal| rows::refused_log(name, &refusal);
    if words.option("--all").is_some() || is_json(words) {
        viewer::log(&log).map_err(refused)?;
        let lines = listing::all(&log);
        return files::write("-", if is_json(words) { report::listed(&lines) } else { lines }.as_bytes());
    }
    let listing = calls::listing(&log).map_err(refused)?;
    files::write("-", &listing)?;
    if listing == b"too long\n" {
        return Err(Failure::Log(format!("{}: above 512 records or 9,216 bytes (--all lists them)", files::input_name(name))));
    }
    viewer::log(&log).map(|_| ()).map_err(refused)
}

fn commit(words: &Words) -> Done {
    let name = words.plain(0);
    let commitment = calls::commitment(&files::read_log(name)?).map_err(|refusal| rows::refused_log(name, &refusal))?;
    match words.option("--raw") {
        Some(_) => files::write(words.output(), &commitment),
        None => files::write(words.output(), format!("{}\n", to_hex(&commitment)).as_bytes()),
    }
}

fn answer(words: &Words) -> Done {
    let asked = words.asked(1)?;
    let name = words.plain(0);
    let answer = calls::answer(&asked, &files::read_log(name)?).map_err(|refusal| rows::refused_log(name, &refusal))?;
    files::write(words.output(), &answer)
}

/// What `check` and `show` have in common: the question, and the answer's bytes checked against the commitment.
fn with_checked(words: &Words, asked: &Asked, then: impl FnOnce(&[u8; DIGEST], &Said) -> Done) -> Done {
    let (commitment, answer) = (words.plain(0), words.last());
    args::one_input(commitment, answer)?;
    let commitment = args::commitment(commitment)?;
    let answer = files::read(answer)?;
    let told = |refusal: Refusal| if is_json(words) { report::refused(&refusal) } else { refusal.to_string() };
    let said = calls::checked(asked, &commitment, &answer).map_err(|refusal| Failure::Answer(told(refusal)))?;
    then(&commitment, &said)
}

/// Whether a result is written as JSON, for programs.
fn is_json(words: &Words) -> bool {
    words.option("--json").is_some()
}

fn check(words: &Words) -> Done {
    let asked = words.asked(1)?;
    with_checked(words, &asked, |commitment, said| {
        let text = match said {
            _ if is_json(words) => report::accepted(&asked, commitment, said, false),
            // the list is the verdict
            Said::Listed(_) => accepted(&asked, said) + &said.lines(),
            _ => accepted(&asked, said),
        };
        files::write("-", text.as_bytes())
    })
}

/// What an accepted answer says, with the question that it was checked for: two words that were exchanged show.
fn accepted(asked: &Asked, said: &Said) -> String {
    format!("accepted: {asked}: {}\n", said.verdict(asked))
}

/// Commits, answers, checks and shows.
fn ask(words: &Words) -> Done {
    let asked = words.asked(1)?;
    let name = words.plain(0);
    let log = files::read_log(name)?;
    let refused = |refusal: Refusal| rows::refused_log(name, &refusal);
    let commitment = calls::commitment(&log).map_err(refused)?;
    let answer = calls::answer(&asked, &log).map_err(refused)?;
    let said = calls::checked(&asked, &commitment, &answer).map_err(|refusal| Failure::Answer(refusal.to_string()))?;
    files::write("-", format!("commitment {}\n{}{}", to_hex(&commitment), accepted(&asked, &said), said.lines()).as_bytes())
}

fn show(words: &Words) -> Done {
    let asked = words.asked(1)?;
    if let Asked::All(_) = asked {
        undrawn(words)?;
    }
    let names = words.option("--names").map(Names::read).transpose()?;
    with_checked(words, &asked, |commitment, said| {
        let verdict = said.verdict(&asked);
        if let (Asked::One(question), Said::One(_, history)) = (&asked, said) {
            drawn(words, &Head { question, verdict: &verdict, commitment: &to_hex(commitment) }, history, names.as_ref())?;
        }
        if ["--svg", "--html"].iter().any(|option| words.option(option) == Some("-")) {
            return Ok(());
        }
        if is_json(words) {
            return files::write("-", report::accepted(&asked, commitment, said, true).as_bytes());
        }
        let text = match said {
            Said::One(_, history) if words.option("--graph").is_some() => lanes::text(history),
            _ => said.lines(),
        };
        files::write("-", format!("{verdict}\n{text}").as_bytes())
    })
}

/// A list has no edges, so there is nothing to draw.
fn undrawn(words: &Words) -> Done {
    match ["--graph", "--html", "--svg"].into_iter().find(|option| words.option(option).is_some()) {
        Some(option) => Err(Failure::Use(format!("{option} draws a history: '{}' has a list, as text or with --json", Span::WORD))),
        None => Ok(()),
    }
}

/// The picture and the page, if they are asked for.
fn drawn(words: &Words, head: &Head, history: &History, names: Option<&Names>) -> Done {
    if let Some(file) = words.option("--svg") {
        let title = format!("{}: {}", Asked::One(*head.question), head.verdict);
        files::write(file, svg::picture(&title, history).as_bytes())?;
    }
    match words.option("--html") {
        Some(file) => files::write(file, page::page(head, history, names).as_bytes()),
        None => Ok(()),
    }
}
