//! Running the built command line on files of a test's own.
#![allow(dead_code)]

use std::fs;
use std::io::Write;
use std::os::unix::fs::PermissionsExt;
use std::path::PathBuf;
use std::process::{Command, Stdio};
use std::sync::{Mutex, MutexGuard, PoisonError};

use reference::hex::to_hex;
use reference::host::Host;
use reference::log::{write, Record};
use reference::sample::log_k;
use reference::Question;

/// What a run gave.
#[derive(Debug, PartialEq, Eq)]
pub struct Ran {
    pub status: i32,
    pub out: Vec<u8>,
    pub err: String,
}

impl Ran {
    pub fn text(&self) -> &str {
        std::str::from_utf8(&self.out).expect("text")
    }

    /// The output of a run that succeeded and said nothing else.
    pub fn good(self) -> Vec<u8> {
        assert_eq!((self.status, self.err.as_str()), (0, ""));
        self.out
    }
}

/// Held while a file is written and while a program is started. A program that starts meanwhile has the file open for writing for a
/// moment, and a file that is open for writing cannot be started.
fn alone() -> MutexGuard<'static, ()> {
    static ALONE: Mutex<()> = Mutex::new(());
    ALONE.lock().unwrap_or_else(PoisonError::into_inner)
}

/// A new empty folder for a test.
pub struct Folder(PathBuf);

impl Folder {
    pub fn new(name: &str) -> Folder {
        let folder = PathBuf::from(env!("CARGO_TARGET_TMPDIR")).join(name);
        let _ = fs::remove_dir_all(&folder);
        fs::create_dir_all(&folder).expect("a folder");
        Folder(folder)
    }

    pub fn path(&self, name: &str) -> String {
        self.0.join(name).to_str().expect("UTF-8").to_string()
    }

    pub fn file(&self, name: &str, bytes: &[u8]) -> String {
        let path = self.path(name);
        let _alone = alone();
        fs::write(&path, bytes).expect("written");
        path
    }

    /// A shell script, in which `answer` writes the true answer. It runs in the folder.
    pub fn host(&self, name: &str, script: &str) -> String {
        let answer = format!("answer() {{ '{}' answer - \"$@\"; }}", env!("CARGO_BIN_EXE_bozhtagul"));
        let host = self.file(name, format!("#!/bin/sh\ncd '{}'\n{answer}\n{script}\n", self.path("")).as_bytes());
        fs::set_permissions(&host, fs::Permissions::from_mode(0o755)).expect("a program");
        host
    }

    pub fn read(&self, name: &str) -> Vec<u8> {
        fs::read(self.path(name)).expect("read")
    }
}

/// Runs a program with standard input given.
pub fn run_with(program: &mut Command, input: &[u8]) -> Ran {
    let program = program.stdin(Stdio::piped()).stdout(Stdio::piped()).stderr(Stdio::piped());
    let started = {
        let _alone = alone();
        program.spawn()
    };
    let mut child = started.expect("started");
    // a program that does not read its input may have ended before
    let _ = child.stdin.take().expect("piped").write_all(input);
    let output = child.wait_with_output().expect("ended");
    let err = String::from_utf8(output.stderr).expect("text");
    Ran { status: output.status.code().expect("a status"), out: output.stdout, err }
}

/// Runs the command line.
pub fn run_on(input: &[u8], words: &[&str]) -> Ran {
    run_with(Command::new(env!("CARGO_BIN_EXE_bozhtagul")).args(words), input)
}

pub fn run(words: &[&str]) -> Ran {
    run_on(b"", words)
}

/// A log with what the Rust version makes of it.
pub struct Logged {
    pub log: Vec<u8>,
    pub commitment: [u8; 32],
    host: Host,
}

impl Logged {
    pub fn new(records: &[Record]) -> Logged {
        let host = Host::new(records);
        Logged { log: write(records), commitment: host.commitment(), host }
    }

    pub fn k() -> Logged {
        Logged::new(&log_k())
    }

    pub fn hex(&self) -> String {
        to_hex(&self.commitment)
    }

    pub fn answer(&self, direction: u8, entity: u32, time: u64) -> Vec<u8> {
        self.host.answer(&Question::new(direction, entity, time))
    }

    pub fn between(&self, entity: u32, from: u64, until: u64) -> Vec<u8> {
        self.host.answer(&Question::between(entity, from, until))
    }
}
