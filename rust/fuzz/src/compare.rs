//! A call of the library beside the Rust version's: the result, and all memory that was lent. A recorder's calls are compared by `recorders`.

use calls::{plain_rust, Fields, Memory, Name};
use reference::Question;

use crate::call::Call;
use crate::guard::{Area, Input};

/// What a call leaves.
#[derive(Clone, Debug, PartialEq, Eq)]
struct After {
    fields: Fields,
    commitment: Vec<u8>,
    input: Vec<u8>,
    work: Vec<u8>,
    out: Vec<u8>,
    /// The bytes beside the work area and the output are as they were.
    rest_is_kept: bool,
}

/// What the library's call leaves, its memory beside forbidden pages.
fn given(call: &Call, library: impl Fn(Name, &Question, Memory) -> Fields) -> After {
    let [commitment, input, work, out] = call.edges;
    let (commitment, input) = (Input::new(&call.commitment, commitment), Input::new(&call.input, input));
    let mut work = Area::new(&call.pattern.bytes(call.work), work);
    let mut out = Area::new(&call.pattern.bytes(call.out), out);
    let memory =
        Memory { commitment: commitment.bytes(), input: input.bytes(), work: work.bytes_mut(), out: out.bytes_mut() };
    let fields = library(call.name, &call.question, memory);
    After {
        fields,
        commitment: commitment.bytes().to_vec(),
        input: input.bytes().to_vec(),
        work: work.bytes().to_vec(),
        out: out.bytes().to_vec(),
        rest_is_kept: work.rest_is_kept() && out.rest_is_kept(),
    }
}

/// What the Rust version's call leaves: its inputs as they were.
fn expected(call: &Call) -> After {
    let mut work = call.pattern.bytes(call.work);
    let mut out = call.pattern.bytes(call.out);
    let memory = Memory { commitment: &call.commitment, input: &call.input, work: &mut work, out: &mut out };
    let fields = plain_rust(call.name, &call.question, memory);
    After { fields, commitment: call.commitment.clone(), input: call.input.clone(), work, out, rest_is_kept: true }
}

/// Runs a call both ways, and gives the result; else what differs.
pub fn run(call: &Call, library: impl Fn(Name, &Question, Memory) -> Fields) -> Result<Fields, String> {
    let expected = expected(call);
    let given = given(call, library);
    match difference(&given, &expected) {
        None => Ok(expected.fields),
        Some(difference) => Err(difference),
    }
}

fn difference(given: &After, expected: &After) -> Option<String> {
    if given.fields != expected.fields {
        return Some(format!("the result is {:?}, and not {:?}", given.fields, expected.fields));
    }
    let memory = [
        ("commitment", &given.commitment, &expected.commitment),
        ("input", &given.input, &expected.input),
        ("work area", &given.work, &expected.work),
        ("output", &given.out, &expected.out),
    ];
    for (name, given, expected) in memory {
        if let Some(place) = first_difference(given, expected) {
            let (byte, due) = (given.get(place), expected.get(place));
            return Some(format!("byte {place} of the {name} is {byte:?}, and not {due:?}"));
        }
    }
    (!given.rest_is_kept).then(|| "a byte beside the work area or the output is written".to_string())
}

fn first_difference(given: &[u8], expected: &[u8]) -> Option<usize> {
    let common = given.len().min(expected.len());
    let place = (0..common).find(|&place| given[place] != expected[place]);
    place.or((given.len() != expected.len()).then_some(common))
}

#[cfg(test)]
mod tests {
    use super::*;
    use crate::call::Pattern;
    use crate::guard::Edge;
    use calls::{proved, NAMES};
    use reference::host::Host;
    use reference::log::write;
    use reference::sample::log_k;

    /// Each call on Log K, with more work area and output than it needs.
    fn calls() -> Vec<Call> {
        let question = Question::new(1, 2, 35);
        let host = Host::new(&log_k());
        let edges = [Edge::Start, Edge::End, Edge::Start, Edge::End];
        let call = |name| {
            let input = if [Name::Check, Name::Records].contains(&name) { host.answer(&question) } else { write(&log_k()) };
            let commitment = host.commitment().to_vec();
            Call { name, question, commitment, input, work: 1000, out: 500, pattern: Pattern { first: 1, step: 3 }, damage: Vec::new(), edges }
        };
        NAMES.into_iter().filter(|name| !name.is_recorders()).map(call).collect()
    }

    #[test]
    fn the_proved_library_agrees() {
        for call in calls() {
            assert_eq!(run(&call, proved), Ok(expected(&call).fields));
        }
    }

    #[test]
    fn each_field_is_compared() {
        let mut fields = 0;
        for call in calls() {
            for altered in expected(&call).fields.names() {
                let wrong = |name: Name, question: &Question, memory: Memory| {
                    let mut fields = proved(name, question, memory);
                    fields.set(altered, fields.get(altered) ^ 1);
                    fields
                };
                assert!(run(&call, wrong).unwrap_err().starts_with("the result is"));
                fields += 1;
            }
        }
        assert_eq!(fields, 2 + 3 + 3 + 2 + 3 + 5 + 2);
    }

    #[test]
    fn each_byte_is_compared() {
        for call in calls() {
            let due = expected(&call);
            let parts: [fn(&mut After) -> &mut Vec<u8>; 4] =
                [|after| &mut after.commitment, |after| &mut after.input, |after| &mut after.work, |after| &mut after.out];
            for part in parts {
                let length = part(&mut due.clone()).len();
                for place in 0..length {
                    let mut wrong = due.clone();
                    part(&mut wrong)[place] ^= 0x80;
                    assert!(difference(&wrong, &due).is_some_and(|text| text.contains(&format!("byte {place} of"))));
                }
                let mut shorter = due.clone();
                part(&mut shorter).pop();
                assert!(difference(&shorter, &due).is_some());
            }
            assert!(difference(&After { rest_is_kept: false, ..due.clone() }, &due).is_some());
        }
    }
}
