//! The program and the script end with a verdict, and their status says the same.

use std::fs;
use std::os::unix::fs::PermissionsExt;
use std::path::Path;
use std::process::{Command, Output};
use std::sync::{Mutex, MutexGuard, PoisonError};

/// One test at a time: a program that is written while another thread starts one may be busy when it is started itself.
fn alone() -> MutexGuard<'static, ()> {
    static ALONE: Mutex<()> = Mutex::new(());
    ALONE.lock().unwrap_or_else(PoisonError::into_inner)
}

fn last_line(output: &Output) -> String {
    let text = String::from_utf8_lossy(&output.stdout);
    text.lines().last().unwrap_or("").to_string()
}

#[test]
fn the_program_ends_with_a_verdict() {
    let _alone = alone();
    let run = |words: &str| Command::new(env!("CARGO_BIN_EXE_fuzz")).args(words.split(' ')).output().expect("it runs");
    let output = run("--seed 3 --cases 200");
    assert_eq!((last_line(&output).as_str(), output.status.code()), ("no difference in 200 cases, seed 3", Some(0)));
    let output = run("--cases many");
    assert_eq!((last_line(&output).as_str(), output.status.code()), ("", Some(2)));
    assert!(String::from_utf8_lossy(&output.stderr).starts_with("fuzz/run [--seed N]"));
}

fn script(path: &Path, text: &str) {
    fs::create_dir_all(path.parent().expect("a folder")).expect("a folder");
    fs::write(path, text).expect("written");
    fs::set_permissions(path, fs::Permissions::from_mode(0o755)).expect("made a program");
}

/// The script in a tree where nothing is built and the program is this shell text.
fn run_script(name: &str, program: &str) -> Output {
    let tree = Path::new(env!("CARGO_TARGET_TMPDIR")).join("verdict").join(name);
    script(&tree.join("fuzz/run"), include_str!("../../../fuzz/run"));
    script(&tree.join("bin/cargo"), "#!/bin/sh\n");
    script(&tree.join("target/staticlib/libbozhtagul.a"), "");
    script(&tree.join("target/cargo/release/fuzz"), &format!("#!/bin/sh\n{program}\n"));
    let path = format!("{}:{}", tree.join("bin").display(), std::env::var("PATH").unwrap_or_default());
    Command::new(tree.join("fuzz/run")).args(["--cases", "7"]).env("PATH", path).output().expect("it runs")
}

#[test]
fn the_script_keeps_verdict_and_status() {
    let _alone = alone();
    for status in [0, 1, 2] {
        let output = run_script(&format!("status_{status}"), &format!("echo \"said $*\"; exit {status}"));
        assert_eq!((last_line(&output).as_str(), output.status.code()), ("said --cases 7", Some(status)));
    }
}

#[test]
fn a_run_that_dies_has_no_verdict() {
    let _alone = alone();
    let output = run_script("fault", "echo 0 s; kill -SEGV $$");
    let expected = "no verdict: the run ended with status 139 in the case that is named above";
    assert_eq!((last_line(&output).as_str(), output.status.code()), (expected, Some(139)));
}
