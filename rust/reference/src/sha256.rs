//! SHA-256 of FIPS 180-4.
//!
//! The message schedule of a block is worked out first, four words a step, with
//! the round constants added in place. Then sixteen unrolled rounds run four
//! times; a round moves no variable, it changes which variable has which role.

/// A SHA-256 value.
pub type Digest = [u8; 32];

/// Bytes in a block.
pub(crate) const BLOCK: usize = 64;

/// The first 32 bits of the fractional parts of the cube roots of the first 64 primes.
pub const ROUND_CONSTANTS: [u32; 64] = [
    0x428a2f98, 0x71374491, 0xb5c0fbcf, 0xe9b5dba5, 0x3956c25b, 0x59f111f1, 0x923f82a4, 0xab1c5ed5,
    0xd807aa98, 0x12835b01, 0x243185be, 0x550c7dc3, 0x72be5d74, 0x80deb1fe, 0x9bdc06a7, 0xc19bf174,
    0xe49b69c1, 0xefbe4786, 0x0fc19dc6, 0x240ca1cc, 0x2de92c6f, 0x4a7484aa, 0x5cb0a9dc, 0x76f988da,
    0x983e5152, 0xa831c66d, 0xb00327c8, 0xbf597fc7, 0xc6e00bf3, 0xd5a79147, 0x06ca6351, 0x14292967,
    0x27b70a85, 0x2e1b2138, 0x4d2c6dfc, 0x53380d13, 0x650a7354, 0x766a0abb, 0x81c2c92e, 0x92722c85,
    0xa2bfe8a1, 0xa81a664b, 0xc24b8b70, 0xc76c51a3, 0xd192e819, 0xd6990624, 0xf40e3585, 0x106aa070,
    0x19a4c116, 0x1e376c08, 0x2748774c, 0x34b0bcb5, 0x391c0cb3, 0x4ed8aa4a, 0x5b9cca4f, 0x682e6ff3,
    0x748f82ee, 0x78a5636f, 0x84c87814, 0x8cc70208, 0x90befffa, 0xa4506ceb, 0xbef9a3f7, 0xc67178f2,
];

/// The first 32 bits of the fractional parts of the square roots of the first 8 primes.
pub const INITIAL: [u32; 8] = [
    0x6a09e667, 0xbb67ae85, 0x3c6ef372, 0xa54ff53a, 0x510e527f, 0x9b05688c, 0x1f83d9ab, 0x5be0cd19,
];

/// The digest of a whole message.
pub fn sha256(message: &[u8]) -> Digest {
    let mut state = INITIAL;
    let (blocks, rest) = message.split_at(message.len() - message.len() % BLOCK);
    compress(&mut state, blocks);
    finish(state, rest, message.len() as u64)
}

/// The digest of a message that comes in pieces.
#[derive(Clone)]
pub struct Sha256 {
    state: [u32; 8],
    buffer: [u8; BLOCK],
    filled: usize,
    length: u64,
}

impl Default for Sha256 {
    fn default() -> Self {
        Self::new()
    }
}

impl Sha256 {
    pub fn new() -> Self {
        Sha256 { state: INITIAL, buffer: [0; BLOCK], filled: 0, length: 0 }
    }

    /// Adds a piece to the message.
    pub fn update(&mut self, mut piece: &[u8]) {
        self.length = self.length.wrapping_add(piece.len() as u64);
        if self.filled > 0 {
            let taken = piece.len().min(BLOCK - self.filled);
            self.buffer[self.filled..self.filled + taken].copy_from_slice(&piece[..taken]);
            self.filled += taken;
            piece = &piece[taken..];
            if self.filled < BLOCK {
                return;
            }
            compress(&mut self.state, &self.buffer);
        }
        let (blocks, rest) = piece.split_at(piece.len() - piece.len() % BLOCK);
        compress(&mut self.state, blocks);
        self.buffer[..rest.len()].copy_from_slice(rest);
        self.filled = rest.len();
    }

    /// The digest of the pieces in order.
    pub fn finish(self) -> Digest {
        finish(self.state, &self.buffer[..self.filled], self.length)
    }
}

/// Pads the message's last part, shorter than a block, and gives the digest.
fn finish(mut state: [u32; 8], rest: &[u8], length: u64) -> Digest {
    let mut last = [0u8; 2 * BLOCK];
    let end = pad(&mut last, rest, length);
    compress(&mut state, &last[..end]);
    digest(state)
}

/// Puts the message's last part, shorter than a block, and its padding into zeros, and gives the end: that of one block or two.
/// The bit length is taken modulo 2^64.
#[inline(always)]
pub(crate) fn pad(last: &mut [u8; 2 * BLOCK], rest: &[u8], length: u64) -> usize {
    last[..rest.len()].copy_from_slice(rest);
    last[rest.len()] = 0x80;
    let end = if rest.len() < BLOCK - 8 { BLOCK } else { 2 * BLOCK };
    last[end - 8..end].copy_from_slice(&length.wrapping_mul(8).to_be_bytes());
    end
}

/// The bytes of the last state.
#[inline(always)]
pub(crate) fn digest(state: [u32; 8]) -> Digest {
    let mut digest = [0u8; 32];
    for (bytes, word) in digest.chunks_exact_mut(4).zip(state) {
        bytes.copy_from_slice(&word.to_be_bytes());
    }
    digest
}

#[inline(always)]
pub(crate) fn choose(x: u32, y: u32, z: u32) -> u32 {
    z ^ (x & (y ^ z))
}

/// The majority of a, b and c, from b and the exclusive ors of a and b and of b and c.
#[inline(always)]
pub(crate) fn majority(b: u32, ab: u32, bc: u32) -> u32 {
    b ^ (ab & bc)
}

#[inline(always)]
pub(crate) fn big_sigma0(x: u32) -> u32 {
    x.rotate_right(2) ^ x.rotate_right(13) ^ x.rotate_right(22)
}

#[inline(always)]
pub(crate) fn big_sigma1(x: u32) -> u32 {
    x.rotate_right(6) ^ x.rotate_right(11) ^ x.rotate_right(25)
}

/// Rotations by 7 and 18, and a shift by 3.
#[inline(always)]
pub(crate) fn small_sigma0(x: u32) -> u32 {
    (x.rotate_right(11) ^ x).rotate_right(7) ^ (x >> 3)
}

/// Rotations by 17 and 19, and a shift by 10.
#[inline(always)]
pub(crate) fn small_sigma1(x: u32) -> u32 {
    (x.rotate_right(2) ^ x).rotate_right(17) ^ (x >> 10)
}

/// The 64 schedule words of a block, each with its round constant added.
#[inline(always)]
fn schedule(block: &[u8; BLOCK]) -> [u32; 64] {
    let mut w = [0u32; 64];
    for (pair, bytes) in w.chunks_exact_mut(2).zip(block.chunks_exact(8)) {
        let bytes: [u8; 8] = bytes.try_into().unwrap();
        let two = u64::from_be_bytes(bytes);
        pair[0] = (two >> 32) as u32;
        pair[1] = two as u32;
    }
    for i in (16..64).step_by(4) {
        let p: &[u32; 16] = w[i - 16..i].try_into().unwrap();
        let mut next = [0u32; 4];
        for j in 0..4 {
            next[j] = p[j].wrapping_add(p[j + 9]).wrapping_add(small_sigma0(p[j + 1]));
        }
        next[0] = next[0].wrapping_add(small_sigma1(p[14]));
        next[1] = next[1].wrapping_add(small_sigma1(p[15]));
        next[2] = next[2].wrapping_add(small_sigma1(next[0]));
        next[3] = next[3].wrapping_add(small_sigma1(next[1]));
        w[i..i + 4].copy_from_slice(&next);
    }
    for (word, constant) in w.iter_mut().zip(ROUND_CONSTANTS) {
        *word = word.wrapping_add(constant);
    }
    w
}

/// One round. `bc` holds the exclusive or of b and c, which the round before worked out as that of its own a and b.
macro_rules! round {
    ($a:ident $b:ident $c:ident $d:ident $e:ident $f:ident $g:ident $h:ident, $bc:ident, $w:expr) => {
        let t = $h
            .wrapping_add($w)
            .wrapping_add(choose($e, $f, $g))
            .wrapping_add(big_sigma1($e));
        $d = $d.wrapping_add(t);
        let ab = $a ^ $b;
        $h = t.wrapping_add(majority($b, ab, $bc)).wrapping_add(big_sigma0($a));
        $bc = ab;
    };
}

/// Adds whole blocks to the state.
fn compress(state: &mut [u32; 8], blocks: &[u8]) {
    let [mut a, mut b, mut c, mut d, mut e, mut f, mut g, mut h] = *state;
    for block in blocks.chunks_exact(BLOCK) {
        let start = [a, b, c, d, e, f, g, h];
        let w = schedule(block.try_into().unwrap());
        let mut bc = b ^ c;
        for w in w.chunks_exact(16) {
            let w: &[u32; 16] = w.try_into().unwrap();
            round!(a b c d e f g h, bc, w[0]);
            round!(h a b c d e f g, bc, w[1]);
            round!(g h a b c d e f, bc, w[2]);
            round!(f g h a b c d e, bc, w[3]);
            round!(e f g h a b c d, bc, w[4]);
            round!(d e f g h a b c, bc, w[5]);
            round!(c d e f g h a b, bc, w[6]);
            round!(b c d e f g h a, bc, w[7]);
            round!(a b c d e f g h, bc, w[8]);
            round!(h a b c d e f g, bc, w[9]);
            round!(g h a b c d e f, bc, w[10]);
            round!(f g h a b c d e, bc, w[11]);
            round!(e f g h a b c d, bc, w[12]);
            round!(d e f g h a b c, bc, w[13]);
            round!(c d e f g h a b, bc, w[14]);
            round!(b c d e f g h a, bc, w[15]);
        }
        a = a.wrapping_add(start[0]);
        b = b.wrapping_add(start[1]);
        c = c.wrapping_add(start[2]);
        d = d.wrapping_add(start[3]);
        e = e.wrapping_add(start[4]);
        f = f.wrapping_add(start[5]);
        g = g.wrapping_add(start[6]);
        h = h.wrapping_add(start[7]);
    }
    *state = [a, b, c, d, e, f, g, h];
}
