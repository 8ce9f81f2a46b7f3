//! The stack that each call takes, in bytes: measured, not proved, and rounded up. It does not depend on the input, but for a check's
//! direction and the depth of a span's tree, of which the worst is meant. The benchmark measures it, and a test of `rust/bench` holds these
//! numbers to what is measured.

pub const HASH: usize = 2_048;
pub const LOG: usize = 270_336;
pub const LISTING: usize = 139_264;
pub const COMMITMENT: usize = 282_624;
pub const ANSWER: usize = 270_336;
pub const CHECK: usize = 14_336;
pub const RECORDS: usize = 14_336;
pub const RECORDER_START: usize = 64;
pub const RECORDER_TAKE: usize = 81_920;
pub const RECORDER_COMMITMENT: usize = 2_048;
