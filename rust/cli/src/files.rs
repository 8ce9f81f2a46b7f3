//! Files by name; `-` is standard input or standard output.

use std::fs::{self, File};
use std::io::{self, ErrorKind, Read, Write};

use viewer::MOST_RECORDS;

use crate::failure::{Done, Failure};

/// A log's records have at most this many bytes each. One byte more than all of them is enough for row 2.
const LONGEST_RECORD: usize = 18;

/// Of anything else so much is read. No true answer is longer, and of a false one what follows such a length is not looked at
/// unless all before it fits together.
const MOST: usize = 1 << 26;

/// A log: as many bytes of it as can matter.
pub fn read_log(name: &str) -> Result<Vec<u8>, Failure> {
    read_at_most(name, MOST_RECORDS * LONGEST_RECORD + 1)
}

pub fn read(name: &str) -> Result<Vec<u8>, Failure> {
    read_at_most(name, MOST)
}

fn read_at_most(name: &str, most: usize) -> Result<Vec<u8>, Failure> {
    let bytes = if name == "-" { first_of(io::stdin().lock(), most) } else { File::open(name).and_then(|file| first_of(file, most)) };
    bytes.map_err(|reason| Failure::Use(format!("{}: {reason}", input_name(name))))
}

fn first_of(source: impl Read, most: usize) -> io::Result<Vec<u8>> {
    let mut bytes = Vec::new();
    source.take(most as u64).read_to_end(&mut bytes)?;
    Ok(bytes)
}

/// Writes a file, or to standard output. Nobody who closes a pipe waits for what follows: that is no failure.
pub fn write(name: &str, bytes: &[u8]) -> Done {
    let written = match name {
        "-" => write_output(bytes).or_else(|reason| if reason.kind() == ErrorKind::BrokenPipe { Ok(()) } else { Err(reason) }),
        _ => fs::write(name, bytes),
    };
    written.map_err(|reason| Failure::Use(format!("{}: {reason}", if name == "-" { "standard output" } else { name })))
}

/// A file that is read, as it is called in what is said of it.
pub fn input_name(name: &str) -> &str {
    if name == "-" {
        "standard input"
    } else {
        name
    }
}

fn write_output(bytes: &[u8]) -> io::Result<()> {
    let mut out = io::stdout().lock();
    out.write_all(bytes)?;
    out.flush()
}
