//! Where an answer first differs from the true one, and what stands there.

use reference::hex::to_hex;

use crate::explain::explained;

/// None if they are equal. The place is that of the field, as in the table of the true answer.
pub fn said(answer: &[u8], truth: &[u8]) -> Option<String> {
    let same = answer.iter().zip(truth).take_while(|(one, other)| one == other).count();
    if same == truth.len() {
        return (answer.len() > same).then(|| format!("it goes on at byte {same}, where the true answer ends"));
    }
    let fields = explained(truth).fields;
    let field = fields.iter().find(|field| same < field.end())?;
    let there = answer.get(field.place..).unwrap_or_default();
    let there = match &there[..there.len().min(field.bytes.len())] {
        [] => "nothing".to_string(),
        bytes => to_hex(bytes),
    };
    Some(format!("byte {}: {}: {there} stands there, and the true answer has {}", field.place, field.name(), to_hex(&field.bytes)))
}

#[cfg(test)]
mod tests {
    use super::*;
    use crate::asked::Asked;
    use viewer::{Direction, Question};

    fn truth() -> Vec<u8> {
        let question = Asked::One(Question { direction: Direction::Backward, entity: 2, time: 35 });
        crate::calls::answer(&question, &reference::log::write(&reference::sample::log_k())).unwrap()
    }

    /// What is said of the true answer with a part of it replaced.
    fn replaced(place: usize, bytes: &[u8]) -> String {
        let mut answer = truth();
        answer[place..place + bytes.len()].copy_from_slice(bytes);
        said(&answer, &truth()).unwrap()
    }

    #[test]
    fn the_field_is_named_with_both_contents() {
        let expected = "byte 1: R, number of entities: 02000000 stands there, and the true answer has 00000002";
        assert_eq!(replaced(1, &[2, 0, 0, 0]), expected);
        assert_eq!(replaced(4, &[9]), expected.replace("02000000", "00000009"));
        assert_eq!(replaced(437, &[8]), "byte 437: V, kind: 08 stands there, and the true answer has 07");
        assert_eq!(replaced(424, b"E"), "byte 424: V, the found version: 45 stands there, and the true answer has 56");
    }

    #[test]
    fn an_end_too_early_or_too_late_is_said() {
        let truth = truth();
        assert_eq!(said(&truth, &truth), None);
        assert_eq!(said(&truth[..393], &truth).unwrap(), "byte 393: B: nothing stands there, and the true answer has 42");
        assert_eq!(said(&truth[..396], &truth).unwrap(), "byte 394: B, count: 0000 stands there, and the true answer has 00000003");
        assert_eq!(said(&[&truth[..], b"x"].concat(), &truth).unwrap(), "it goes on at byte 446, where the true answer ends");
    }
}
