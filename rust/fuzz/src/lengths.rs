//! Lengths of work areas and outputs.

use reference::random::Random;

/// A length where `needed` bytes are enough: mostly that many, or some more; else none, one less, or any less.
pub fn any_length(random: &mut Random, needed: usize) -> usize {
    match random.below(16) {
        0 => 0,
        1 | 2 => needed.saturating_sub(1),
        3 => random.index(needed + 1),
        4 | 5 => needed + 1,
        6 => needed + random.index(300),
        7 => 2 * needed,
        _ => needed,
    }
}
