//! SHA-256 of strings of one length, eight side by side.
//!
//! A row holds one word of each string: word t of string l stands at place 8t + l of an array. A step on a row is the same step for every
//! string, so the compiler makes vector instructions of it. The rounds keep every a and e that they make: b, c and d are former values of a,
//! and f, g and h are former values of e.

use crate::sha256::{
    big_sigma0, big_sigma1, choose, digest, majority, pad, sha256, small_sigma0, small_sigma1, Digest, BLOCK, INITIAL,
    ROUND_CONSTANTS,
};

/// Strings side by side.
pub const LANES: usize = 8;

/// Fewer strings are hashed one by one, because an idle lane takes as long as a busy one.
const FEWEST: usize = 5;

/// Words of the strings' states.
const STATE: usize = 8 * LANES;
/// Words of a block of each string, and of their schedules.
const WORDS: usize = 16 * LANES;
const SCHEDULE: usize = 64 * LANES;
/// Words of the first four rows in a table of the rounds, and of the whole table.
const FOUR: usize = 4 * LANES;
const TABLE: usize = FOUR + SCHEDULE;

/// The digests of strings of one length, in order.
pub fn digests<const N: usize>(strings: &[[u8; N]]) -> Vec<Digest> {
    let mut digests = Vec::with_capacity(strings.len());
    for group in strings.chunks(LANES) {
        if group.len() < FEWEST {
            digests.extend(group.iter().map(|string| sha256(string)));
        } else {
            digests.extend_from_slice(&side_by_side(group)[..group.len()]);
        }
    }
    digests
}

/// The digests of at most eight strings; those of idle lanes mean nothing.
fn side_by_side<const N: usize>(group: &[[u8; N]]) -> [Digest; LANES] {
    let mut state: [u32; STATE] = std::array::from_fn(|place| INITIAL[place / LANES]);
    let whole = N - N % BLOCK;
    for start in (0..whole).step_by(BLOCK) {
        compress(&mut state, group.iter().map(|string| &string[start..]));
    }
    let mut last = [[0; 2 * BLOCK]; LANES];
    let mut end = 0;
    for (last, string) in last.iter_mut().zip(group) {
        end = pad(last, &string[whole..], N as u64);
    }
    for start in (0..end).step_by(BLOCK) {
        compress(&mut state, last.iter().map(|last| &last[start..]));
    }
    std::array::from_fn(|lane| digest(std::array::from_fn(|word| state[LANES * word + lane])))
}

/// Adds a block of each string to its state: the first bytes of what is given for it.
fn compress<'a>(state: &mut [u32; STATE], blocks: impl Iterator<Item = &'a [u8]>) {
    let mut w = [0; SCHEDULE];
    for (lane, block) in blocks.enumerate() {
        for (row, bytes) in w[..WORDS].chunks_exact_mut(LANES).zip(block.chunks_exact(4)) {
            row[lane] = u32::from_be_bytes(bytes.try_into().unwrap());
        }
    }
    schedule(&mut w);
    rounds(state, &w);
}

/// Works out the schedules behind the words of the blocks.
fn schedule(w: &mut [u32; SCHEDULE]) {
    for i in 0..SCHEDULE - WORDS {
        w[i + WORDS] = small_sigma1(w[i + 14 * LANES])
            .wrapping_add(w[i + 9 * LANES])
            .wrapping_add(small_sigma0(w[i + LANES]))
            .wrapping_add(w[i]);
    }
}

/// The 64 rounds. In a table of every a, the last four rows before a place are d, c, b and a; in one of every e they are h, g, f and e.
fn rounds(state: &mut [u32; STATE], w: &[u32; SCHEDULE]) {
    let (mut a, mut e) = (table(&state[..FOUR]), table(&state[FOUR..]));
    for (round, constant) in ROUND_CONSTANTS.into_iter().enumerate() {
        for i in LANES * round..LANES * (round + 1) {
            let (d, c, b, last_a) = (a[i], a[i + LANES], a[i + 2 * LANES], a[i + 3 * LANES]);
            let (h, g, f, last_e) = (e[i], e[i + LANES], e[i + 2 * LANES], e[i + 3 * LANES]);
            let t = h.wrapping_add(w[i]).wrapping_add(constant).wrapping_add(choose(last_e, f, g)).wrapping_add(big_sigma1(last_e));
            e[i + FOUR] = d.wrapping_add(t);
            a[i + FOUR] = t.wrapping_add(majority(b, last_a ^ b, b ^ c)).wrapping_add(big_sigma0(last_a));
        }
    }
    add(&mut state[..FOUR], &a[SCHEDULE..]);
    add(&mut state[FOUR..], &e[SCHEDULE..]);
}

/// A table of the rounds that begins with four rows of the state, the last of them first.
fn table(rows: &[u32]) -> [u32; TABLE] {
    let mut table = [0; TABLE];
    for (place, row) in table.chunks_exact_mut(LANES).zip(rows.chunks_exact(LANES).rev()) {
        place.copy_from_slice(row);
    }
    table
}

/// Adds the last four rows of a table to four rows of the state, the last of them first.
fn add(rows: &mut [u32], last: &[u32]) {
    for (row, last) in rows.chunks_exact_mut(LANES).zip(last.chunks_exact(LANES).rev()) {
        for (sum, word) in row.iter_mut().zip(last) {
            *sum = sum.wrapping_add(*word);
        }
    }
}
