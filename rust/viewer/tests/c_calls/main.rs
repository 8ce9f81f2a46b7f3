//! The calls from C: the header declares what the library exports, the example in C goes from a log to a checked history and runs a recorder, and
//! null is an empty slice.

mod declarations;
mod nulls;

use std::fs;
use std::path::{Path, PathBuf};
use std::process::Command;

fn root() -> PathBuf {
    Path::new(env!("CARGO_MANIFEST_DIR")).join("../..")
}

/// A text of the repository, by its place below the root.
fn text(place: &str) -> String {
    let path = root().join(place);
    fs::read_to_string(&path).unwrap_or_else(|error| panic!("{}: {error}", path.display()))
}

/// A source in C, compiled and linked with the library; else why not.
fn compiled(compiler: &str, source: &str) -> Result<PathBuf, String> {
    let folder = Path::new(env!("CARGO_TARGET_TMPDIR")).join("c_calls");
    fs::create_dir_all(&folder).expect("a folder");
    let program = folder.join(Path::new(source).file_stem().expect("a name"));
    let mut command = Command::new(compiler);
    command.args(["-std=c11", "-Wall", "-Wextra", "-Wpedantic", "-Werror", "-I"]).arg(root().join("include"));
    command.arg(root().join(source)).arg("-L").arg(env!("BOZHTAGUL_LIBRARY_DIR")).args(["-lbozhtagul", "-o"]).arg(&program);
    let output = command.output().map_err(|error| format!("a C compiler is needed, and '{compiler}' cannot be started: {error}"))?;
    if output.status.success() {
        Ok(program)
    } else {
        Err(format!("{source}: {}", String::from_utf8_lossy(&output.stderr)))
    }
}

/// What a source in C prints, compiled and run.
fn run(source: &str) -> String {
    let program = compiled("cc", source).unwrap_or_else(|reason| panic!("{reason}"));
    let ran = Command::new(&program).output().expect("the program runs");
    assert!(ran.status.success(), "{source}: {:?}: {}", ran.status, String::from_utf8_lossy(&ran.stderr));
    String::from_utf8(ran.stdout).expect("text")
}

#[test]
fn the_example_goes_from_a_log_to_a_checked_history() {
    let expected = "what led to the version of 2 that stood at 35? answer of 446 bytes\n\
                    found at 30, 3 records\n\
                    E 1 at 10\n\
                    E 2 at 20\n\
                    V 2 at 30, kind 7, from record 1, from record 0\n\
                    what came of the first version of 2 at or after 31? answer of 219 bytes\n\
                    none so late: the last version is at 30\n\
                    which versions of 1 are from 10 to 40? answer of 470 bytes\n\
                    listed, 2 versions\n\
                    1 at 10\n\
                    1 at 40\n\
                    the first record once more: refused 5 at 0\n\
                    the recorder has the log's commitment\n";
    assert_eq!(run("include/example.c"), expected);
}

#[test]
fn a_missing_compiler_is_said() {
    let reason = compiled("no-such-compiler", "include/example.c").unwrap_err();
    assert!(reason.starts_with("a C compiler is needed, and 'no-such-compiler' cannot be started: "), "{reason}");
}
