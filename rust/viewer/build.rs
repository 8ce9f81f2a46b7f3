// Links the proved static library. Its folder is target/staticlib at the repository's root, where `./staticlib` writes it, unless
// the environment names another.

use std::env;
use std::path::PathBuf;
use std::process::exit;

const VARIABLE: &str = "BOZHTAGUL_LIBRARY_DIR";

/// Ends the build with the reason.
fn fail(reason: &str) -> ! {
    eprintln!("{reason}");
    exit(1);
}

fn folder() -> PathBuf {
    let package = PathBuf::from(env::var_os("CARGO_MANIFEST_DIR").expect("cargo names the package's folder"));
    match env::var_os(VARIABLE).map(PathBuf::from) {
        Some(folder) if folder.is_absolute() => folder,
        Some(folder) => fail(&format!("{VARIABLE} is '{}', and has to be a path from the root, because cargo builds elsewhere.", folder.display())),
        None => package.join("../../target/staticlib"),
    }
}

fn main() {
    println!("cargo:rerun-if-env-changed={VARIABLE}");
    let folder = folder();
    let library = folder.join("libbozhtagul.a");
    println!("cargo:rerun-if-changed={}", library.display());
    if !library.is_file() {
        fail(&format!(
            "{} is not there.\nRun './staticlib' at the repository's root, which proves and writes it, or set {VARIABLE} to its folder.",
            library.display()
        ));
    }
    println!("cargo:rustc-link-search=native={}", folder.display());
    println!("cargo:rustc-link-lib=static=bozhtagul");
    // for the tests that read the library or link it themselves
    println!("cargo:rustc-env={VARIABLE}={}", folder.display());
}
