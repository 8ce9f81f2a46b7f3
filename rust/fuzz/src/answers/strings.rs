//! Changes of proof strings, with or without new digests in the strings above them.

use std::collections::HashMap;

use reference::fields::{digest_at, u64_at};
use reference::random::{near, Random};
use reference::sha256::{sha256, Digest};

use crate::answers::posed::Posed;

/// One or two strings altered; mostly the strings above and the commitment follow, so that the proof fits.
pub fn edit(random: &mut Random, posed: &mut Posed) {
    let asked = [u64::from(posed.question.entity), posed.question.time, posed.question.until];
    let strings = &mut posed.pieces.strings;
    if strings.is_empty() {
        return;
    }
    let before = strings.clone();
    for _ in 0..1 + random.index(2) {
        let at = random.index(strings.len());
        edit_string(random, &mut strings[at], asked);
    }
    if !random.once_in(4) {
        follow(&before, strings);
        posed.commitment = sha256(&strings[0]).to_vec();
    }
}

/// A key or other number set near itself or near what is asked, the two halves swapped, any byte, the letter or the length altered.
fn edit_string(random: &mut Random, string: &mut Vec<u8>, asked: [u64; 3]) {
    if string.len() < 57 {
        return string.push(random.byte());
    }
    match random.below(12) {
        0 => string[0] = b"RPGNLBF"[random.index(7)],
        1 if string.len() == 97 => string[1..].rotate_left(48),
        2 => {
            let at = random.index(string.len());
            string[at] ^= 1 << random.below(8);
        }
        3 => drop(string.pop()),
        4 => string.push(random.byte()),
        _ => edit_number(random, string, asked),
    }
}

fn edit_number(random: &mut Random, string: &mut [u8], asked: [u64; 3]) {
    let places: &[usize] = match string[0] {
        b'R' => &[1, 9, 17, 25],
        b'P' | b'N' => &[1, 9, 49, 57],
        b'G' => &[1, 9, 17],
        _ => &[1, 5],
    };
    let at = places[random.index(places.len())];
    let Some(field) = string.get(at..at + 8) else { return };
    let near_to = [u64_at(field, 0), asked[0], asked[1], asked[2]][random.index(4)];
    let value = near(random, near_to);
    string[at..at + 8].copy_from_slice(&value.to_be_bytes());
}

/// Puts the digest of each altered string where a string before it held that of the string as it was.
fn follow(before: &[Vec<u8>], strings: &mut [Vec<u8>]) {
    let held = digests(before);
    for at in (1..strings.len()).rev() {
        let (old, new) = (sha256(&before[at]), sha256(&strings[at]));
        let Some(&(above, place)) = held.get(&old).filter(|(above, _)| *above < at) else { continue };
        if let Some(digest) = strings[above].get_mut(place..place + 32) {
            digest.copy_from_slice(&new);
        }
    }
}

/// The digests of subtrees that strings hold: in which string each stands, and at which byte.
fn digests(strings: &[Vec<u8>]) -> HashMap<Digest, (usize, usize)> {
    let mut held = HashMap::new();
    for (at, string) in strings.iter().enumerate() {
        let places: &[usize] = match (string.first(), string.len()) {
            (Some(b'R'), 65) => &[33],
            (Some(b'P' | b'N'), 97) => &[17, 65],
            (Some(b'G'), 57) => &[25],
            _ => &[],
        };
        held.extend(places.iter().map(|&place| (digest_at(string, place), (at, place))));
    }
    held
}

/// A string left out, doubled, or swapped with another.
pub fn reorder(random: &mut Random, strings: &mut Vec<Vec<u8>>) {
    if strings.is_empty() {
        return;
    }
    let (at, other) = (random.index(strings.len()), random.index(strings.len()));
    match random.below(3) {
        0 => drop(strings.remove(at)),
        1 => strings.insert(at, strings[other].clone()),
        _ => strings.swap(at, other),
    }
}

#[cfg(test)]
mod tests {
    use super::*;
    use crate::answers::bases;
    use reference::check::check;
    use reference::{Question, BETWEEN};

    /// The question without a trace, if it has one; a span stays one.
    fn without_trace(question: &Question) -> Question {
        let direction = match question.direction {
            3..6 => 3,
            BETWEEN => BETWEEN,
            _ => 0,
        };
        Question { direction, ..*question }
    }

    /// The strings above follow: whatever a leaf holds, its proof fits, and the verdict gives what the leaf holds. Of a list any leaf.
    #[test]
    fn an_altered_leaf_fits() {
        let mut random = Random::new(1);
        let (mut leaves, mut listed) = (0, 0);
        while leaves < 50 || listed < 50 {
            let posed = bases::honest(&mut random);
            let question = without_trace(&posed.question);
            let mut strings = posed.pieces.strings;
            let before = strings.clone();
            let places: Vec<usize> = (0..strings.len()).filter(|&at| strings[at][0] == b'L').collect();
            if question.asked().is_err() || places.is_empty() {
                continue;
            }
            strings[random.pick(&places)][12] ^= 1;
            let wrong = check(&question, &posed.commitment, &strings.concat(), 0);
            assert_eq!(wrong.unwrap_err().number, 17);
            follow(&before, &mut strings);
            assert!(check(&question, &sha256(&strings[0]), &strings.concat(), 0).is_ok());
            leaves += 1;
            listed += usize::from(places.len() > 1);
        }
    }
}
