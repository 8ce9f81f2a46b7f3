//! The build script finds the library in the folder that the environment names, and says what to do where it is missing; the repository's own
//! scripts use the library that they build.

use std::fs;
use std::path::{Path, PathBuf};
use std::process::{Command, Output};

const PACKAGE: &str = env!("CARGO_MANIFEST_DIR");

/// A new folder for a test.
fn folder(name: &str) -> PathBuf {
    let folder = Path::new(env!("CARGO_TARGET_TMPDIR")).join("build_script").join(name);
    let _ = fs::remove_dir_all(&folder);
    fs::create_dir_all(&folder).expect("a folder");
    folder
}

/// Builds the build script in a folder and runs it, with the library looked for in another.
fn run(at: &Path, library: &Path) -> Output {
    let program = at.join("build_script");
    let rustc = Command::new("rustc").arg("--edition=2021").arg(Path::new(PACKAGE).join("build.rs")).arg("-o").arg(&program).status();
    assert!(rustc.expect("rustc runs").success());
    let mut script = Command::new(program);
    script.env("CARGO_MANIFEST_DIR", PACKAGE).env("BOZHTAGUL_LIBRARY_DIR", library).output().expect("the script runs")
}

#[test]
fn a_missing_library_is_said() {
    let empty = folder("missing");
    let output = run(&folder("script_of_missing"), &empty);
    let said = String::from_utf8_lossy(&output.stderr);
    assert!(!output.status.success());
    assert!(said.contains(&format!("{} is not there", empty.join("libbozhtagul.a").display())), "{said}");
    assert!(said.contains("'./staticlib'") && said.contains("BOZHTAGUL_LIBRARY_DIR"), "{said}");
    assert!(!String::from_utf8_lossy(&output.stdout).contains("rustc-link"));
}

#[test]
fn the_folder_is_taken_from_the_environment() {
    let other = folder("other");
    fs::write(other.join("libbozhtagul.a"), "").expect("a file");
    let output = run(&folder("script_of_other"), &other);
    let said = String::from_utf8_lossy(&output.stdout);
    assert!(output.status.success());
    assert!(said.contains(&format!("cargo:rustc-link-search=native={}\n", other.display())), "{said}");
    assert!(said.contains("cargo:rerun-if-env-changed=BOZHTAGUL_LIBRARY_DIR\n"), "{said}");
}

#[test]
fn a_path_that_begins_nowhere_is_said() {
    let output = run(&folder("script_of_relative"), Path::new("target/staticlib"));
    let said = String::from_utf8_lossy(&output.stderr);
    assert!(!output.status.success());
    assert!(said.contains("BOZHTAGUL_LIBRARY_DIR is 'target/staticlib'"), "{said}");
}

/// Where cargo is called, the environment names no other library any more.
#[test]
fn the_repositorys_scripts_use_the_library_that_they_build() {
    for script in ["test", "bozhtagul", "bench/run", "fuzz/run", "fuzz/valgrind"] {
        let text = fs::read_to_string(Path::new(PACKAGE).join("../..").join(script)).expect("a script");
        let lines = || text.lines().filter(|line| !line.starts_with('#'));
        let unset = lines().position(|line| line == "unset BOZHTAGUL_LIBRARY_DIR").expect(script);
        let built = lines().position(|line| line.contains("cargo build") || line.contains("cargo test")).expect(script);
        assert!(unset < built, "{script}");
    }
}
