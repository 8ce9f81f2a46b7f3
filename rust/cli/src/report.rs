//! Results in JSON, for programs. Times are texts, because many readers' numbers have 53 bits.

use reference::hex::to_hex;
use viewer::{Record, Refusal, Span, Verdict, Version, DIGEST};

use crate::asked::Asked;
use crate::json::{list, object, text};
use crate::said::Said;

pub fn refused(refusal: &Refusal) -> String {
    object([
        ("accepted", "false".to_string()),
        ("number", refusal.number.to_string()),
        ("position", refusal.position.to_string()),
        ("cause", text(refusal.cause().unwrap_or(""))),
    ])
}

/// What an accepted answer says, with its history if that is asked for. A list is always there.
pub fn accepted(asked: &Asked, commitment: &[u8; DIGEST], said: &Said, with_history: bool) -> String {
    let mut fields = vec![("accepted", "true".to_string()), ("commitment", text(&to_hex(commitment)))];
    fields.extend(question(asked));
    match said {
        Said::One(verdict, _) => fields.extend(of_one(verdict)),
        Said::NoEntity => fields.push(("verdict", text("no entity"))),
        Said::Listed(versions) => fields.extend([
            ("verdict", text("listed")),
            ("count", versions.len().to_string()),
            ("versions", list(versions.iter().map(|Version { entity, time }| object(named(*entity, *time))))),
        ]),
    }
    if let (Said::One(_, history), true) = (said, with_history) {
        fields.push(("versions", list(history.records.iter().map(version))));
    }
    object(fields) + "\n"
}

type Field = (&'static str, String);

fn question(asked: &Asked) -> Vec<Field> {
    match asked {
        Asked::One(question) => {
            let direction = ("direction", text(&question.direction.to_string()));
            [vec![direction], named(question.entity, question.time)].concat()
        }
        Asked::All(Span { entity, from, until }) => {
            [vec![("direction", text(Span::WORD))], named(*entity, *from), vec![("until", text(&until.to_string()))]].concat()
        }
    }
}

/// A verdict on one version.
fn of_one(verdict: &Verdict) -> Vec<Field> {
    match verdict {
        Verdict::NoEntity => vec![("verdict", text("no entity"))],
        Verdict::NotYet { first } => vec![("verdict", text("not yet")), ("first", text(&first.to_string()))],
        Verdict::NoneSoLate { last } => vec![("verdict", text("none so late")), ("last", text(&last.to_string()))],
        Verdict::Found { time, count } => {
            vec![("verdict", text("found")), ("found", text(&time.to_string())), ("records", count.to_string())]
        }
    }
}

fn named(entity: u32, time: u64) -> Vec<Field> {
    vec![("entity", entity.to_string()), ("time", text(&time.to_string()))]
}

/// A version with the edges that lead to it, by the places where they start.
fn version(record: &Record) -> String {
    let mut fields = named(record.entity(), record.time());
    for edge in record.edges() {
        match edge.kind {
            None => fields.push(("previous", edge.start.to_string())),
            Some(kind) => fields.extend([("source", edge.start.to_string()), ("kind", kind.to_string())]),
        }
    }
    object(fields)
}

/// The lines of a listing, each as an object.
pub fn listed(lines: &str) -> String {
    let version = |line: &str| {
        let words: Vec<&str> = line.split(' ').collect();
        let mut fields = vec![("entity", words[0].to_string()), ("time", text(words[1]))];
        if let [_, _, "flow", kind, "from", source, time] = words[..] {
            fields.extend([("kind", kind.to_string()), ("source", source.to_string()), ("source_time", text(time))]);
        }
        object(fields)
    };
    list(lines.lines().map(version)) + "\n"
}
