//! How a command ends when it does not succeed.

pub type Done = Result<(), Failure>;

#[derive(Debug, PartialEq, Eq)]
pub enum Failure {
    /// The check refused an answer. This is the result asked for: it goes to standard output, with status 1.
    Answer(String),
    /// A log was refused, so that there is no result: standard error, status 1.
    Log(String),
    /// The words were wrong, or a file could not be read or written: standard error, status 2.
    Use(String),
}
