//! Differential fuzzing: every exported call of the proved library beside the Rust version's, on made-up inputs.
//!
//! A case is a function of a seed and an index. It is some calls: of `hash` on a message; of `log`, `listing`, `commitment` and
//! `answer` on a log; of `check` and `records` on an answer; or of a running recorder, each on the memory that the one before left. All
//! memory that is lent to the library stands beside pages that may not be touched. Linux only, because of these.

#![deny(unsafe_code)]

pub mod answers;
pub mod call;
pub mod case;
pub mod compare;
#[allow(unsafe_code)]
pub mod guard;
pub mod lengths;
pub mod logs;
pub mod options;
pub mod recorders;
pub mod run;
pub mod tally;
