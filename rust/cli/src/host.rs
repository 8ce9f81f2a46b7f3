//! A participant's program, run once for each question.

use std::io::{self, Read, Write};
use std::path::Path;
use std::process::{Child, ChildStdout, Command, Stdio};
use std::sync::mpsc::{self, Receiver, RecvTimeoutError};
use std::thread;
use std::time::{Duration, Instant};

use crate::asked::Asked;
use crate::calls;
use crate::failure::Failure;

/// How many bytes more than any true answer has are taken: a false answer may go on behind its end, and is then refused and not missing.
const MORE: usize = 1 << 16;

/// How long an output that stays open is read on after its program has ended.
const GRACE: Duration = Duration::from_millis(100);

pub struct Host {
    /// What it is called in a table.
    pub name: String,
    /// The program and its first words; the question's follow them.
    pub words: Vec<String>,
    /// How long it may take for an answer.
    pub limit: Duration,
}

impl Host {
    /// The answer's bytes, or why there are none. That the program cannot be started is an error of use. If `quiet`, what it writes to
    /// standard error is not shown.
    pub fn ask(&self, asked: &Asked, log: &[u8], quiet: bool) -> Result<Result<Vec<u8>, String>, Failure> {
        let mut child = Command::new(&self.words[0])
            .args(&self.words[1..])
            .args(asked.words())
            .stdin(Stdio::piped())
            .stdout(Stdio::piped())
            .stderr(if quiet { Stdio::null() } else { Stdio::inherit() })
            .spawn()
            .map_err(|reason| Failure::Use(not_started(&self.words[0], &reason)))?;
        let answer = self.answer(&mut child, log);
        if answer.is_err() {
            // it may have ended by itself
            let _ = child.kill();
            let _ = child.wait();
        }
        Ok(answer)
    }

    /// Hands over the log, and takes the answer and the program's end, all before the limit.
    fn answer(&self, child: &mut Child, log: &[u8]) -> Result<Vec<u8>, String> {
        let end = Instant::now() + self.limit;
        let mut input = child.stdin.take().ok_or("no input")?;
        let parts = parts(child.stdout.take().ok_or("no output")?);
        let (bytes, most) = (log.to_vec(), calls::most_answer(log.len()) + MORE);
        // a program need not read its log: what is wrong then shows in its answer
        thread::spawn(move || input.write_all(&bytes));
        let (mut answer, mut ended) = (Vec::new(), false);
        loop {
            match parts.recv_timeout(GRACE.min(end.saturating_duration_since(Instant::now()))) {
                Ok(part) => answer.extend(part),
                Err(RecvTimeoutError::Disconnected) => break,
                // a program that it has left behind holds the output
                Err(RecvTimeoutError::Timeout) if ended => break,
                Err(RecvTimeoutError::Timeout) => ended = matches!(child.try_wait(), Ok(Some(_))),
            }
            if answer.len() > most {
                return Err("longer than any answer".to_string());
            }
            if Instant::now() >= end {
                return Err(self.late());
            }
        }
        match wait(child, end) {
            None => Err(self.late()),
            Some(true) => Ok(answer),
            Some(false) => Err("ended with a status that is not 0".to_string()),
        }
    }

    fn late(&self) -> String {
        format!("not ended after {} s", self.limit.as_secs())
    }
}

/// What is written to an output, as it comes. The thread ends with the output, or when nobody takes the parts any more.
fn parts(mut output: ChildStdout) -> Receiver<Vec<u8>> {
    let (sender, receiver) = mpsc::sync_channel(1);
    thread::spawn(move || {
        let mut part = vec![0; 1 << 16];
        while let Ok(length @ 1..) = output.read(&mut part) {
            if sender.send(part[..length].to_vec()).is_err() {
                break;
            }
        }
    });
    receiver
}

/// Whether a program succeeded; none if it has not ended in time.
fn wait(child: &mut Child, end: Instant) -> Option<bool> {
    loop {
        match child.try_wait() {
            Ok(Some(status)) => return Some(status.success()),
            Ok(None) if Instant::now() < end => thread::sleep(Duration::from_millis(1)),
            _ => return None,
        }
    }
}

/// Why a program could not be started, with what may help.
fn not_started(program: &str, reason: &io::Error) -> String {
    let words = format!("start it by words, as in 'mark -- python3 {program}'");
    let hint = match reason.kind() {
        io::ErrorKind::NotFound if Path::new(program).is_file() => {
            ": the file is there, but not the program that its first line names".to_string()
        }
        io::ErrorKind::PermissionDenied => format!(": 'chmod +x {program}' lets it be started; or {words}"),
        _ if reason.raw_os_error() == Some(NO_PROGRAM) => {
            format!(": its first line does not name its interpreter, as '#!/bin/sh' does; or {words}")
        }
        _ => String::new(),
    };
    format!("{program}: {reason}{hint}")
}

/// The system's number for a file that is no program.
const NO_PROGRAM: i32 = 8;
