//! The scripts at the repository's root, with stand-ins for rt and cargo: what is built and when, and what an archive for others holds.

mod common;

use std::fs::{self, File};
use std::os::unix::fs::PermissionsExt;
use std::process::Command;
use std::time::{Duration, SystemTime};

use common::*;

const SCRIPT: &str = include_str!("../../../bozhtagul");
const RELEASE: &str = include_str!("../../../release");
const STATICLIB: &str = include_str!("../../../staticlib");

const SOURCES: [&str; 14] = [
    "crates/fields/src/lib.rt",
    "crates/bozhtagul/src/lib.rt",
    "crates/bozhtagul_c/src/lib.rt",
    "crates/other/src/lib.rt",
    "rust/Cargo.toml",
    "rust/Cargo.lock",
    "rust/cli/Cargo.toml",
    "rust/cli/src/main.rs",
    "rust/viewer/Cargo.toml",
    "rust/viewer/build.rs",
    "rust/viewer/src/lib.rs",
    "rust/reference/Cargo.toml",
    "rust/reference/src/lib.rs",
    "crates.txt",
];

/// Notes its words and the folder that it is called in. Says of each crate what rt says, and makes the library.
const RT: &str = "#!/bin/sh
root=$(cd \"$(dirname \"$0\")/..\" && pwd -P)
called_in=$(pwd -P)
cd \"$root\"
[ \"$1\" != version ] || { cat rt.version; exit; }
echo \"$@ in ${called_in#\"$root\"/}\" >>rt.calls
[ ! -e rt.fails ] || { echo 'crate fields: modules loaded=1 checked=2'; echo logic=not-proved; echo 'rt: the library fields did not build' >&2; exit 1; }
[ ! -e rt.slow ] || sleep 0.5
for crate in fields bozhtagul bozhtagul_c; do
    echo 'library other: modules loaded=1 checked=0'
    echo \"crate $crate: modules loaded=0 checked=1\"
    echo 'logic=proved functions=1'
done
[ -e rt.idle ] || { mkdir -p crates/bozhtagul_c/out && cat crates.txt crates/*/src/* 2>/dev/null >crates/bozhtagul_c/out/libbozhtagul_c.a; }
";

/// Makes a program that shows its words and its input, and ends with status 1.
const CARGO: &str = "#!/bin/sh
[ ! -e cargo.fails ] || { echo 'error: no' >&2; exit 101; }
echo noise
mkdir -p \"$CARGO_TARGET_DIR/release\"
printf '#!/bin/sh\\necho \"$@\"\\ncat\\nexit 1\\n' >\"$CARGO_TARGET_DIR/release/bozhtagul\"
chmod +x \"$CARGO_TARGET_DIR/release/bozhtagul\"
";

/// What the script takes for the toolchain of the proofs.
fn kit() -> &'static str {
    SCRIPT.split_once("kit='").unwrap().1.split_once('\'').unwrap().0
}

/// A repository of empty sources, a space in its name.
struct Tree(Folder);

impl Tree {
    fn new(name: &str) -> Tree {
        let tree = Tree(Folder::new(&format!("script {name}")));
        for source in SOURCES {
            tree.put(source, "");
        }
        tree.put("crates.txt", "# NAME: its crates\nfields:\nother: fields\nbozhtagul: fields\nbozhtagul_c staticlib: fields bozhtagul\n");
        for (name, text) in [("bozhtagul", SCRIPT), ("release", RELEASE), ("staticlib", STATICLIB), ("tools/rt", RT), ("tools/cargo", CARGO)] {
            tree.put(name, text);
            fs::set_permissions(tree.0.path(name), fs::Permissions::from_mode(0o755)).unwrap();
        }
        tree.put("rt.version", kit());
        tree
    }

    fn put(&self, name: &str, text: &str) {
        fs::create_dir_all(self.0.path(name).rsplit_once('/').unwrap().0).unwrap();
        self.0.file(name, text.as_bytes());
    }

    /// Makes a file newer than all others, its contents as they were.
    fn touch(&self, name: &str) {
        let file = File::options().write(true).open(self.0.path(name)).unwrap();
        file.set_modified(SystemTime::now() + Duration::from_secs(10)).unwrap();
    }

    fn alter(&self, name: &str) {
        let text = String::from_utf8(self.0.read(name)).unwrap();
        self.put(name, &(text + "\n# more\n"));
    }

    fn run(&self) -> Ran {
        self.run_as("bozhtagul")
    }

    fn run_as(&self, name: &str) -> Ran {
        self.run_with_path(name, &format!("{}:{}", self.0.path("tools"), std::env::var("PATH").unwrap()))
    }

    fn run_with_path(&self, name: &str, path: &str) -> Ran {
        self.run_words(name, path, &["check", "a b"])
    }

    fn run_words(&self, name: &str, path: &str, words: &[&str]) -> Ran {
        let mut script = Command::new(self.0.path(name));
        run_with(script.args(words).env("PATH", path).current_dir(self.0.path("")), b"the input\n")
    }

    /// The script runs the program, which alone has standard input and output; gives what it said before.
    fn said(&self) -> String {
        let ran = self.run();
        assert_eq!((ran.status, ran.text()), (1, "check a b\nthe input\n"), "{}", ran.err);
        ran.err
    }
}

/// A tree in which all is built.
fn built(name: &str) -> Tree {
    let tree = Tree::new(name);
    tree.said();
    assert_eq!(tree.said(), "");
    tree
}

#[test]
fn the_first_use_builds_both_and_says_how_far_it_is() {
    let tree = Tree::new("first");
    assert_eq!(
        tree.said(),
        "bozhtagul: there is no library yet: proving the library's 3 crates, which takes minutes\n\
         bozhtagul: 1 of 3: fields proved\n\
         bozhtagul: 2 of 3: bozhtagul proved\n\
         bozhtagul: 3 of 3: bozhtagul_c proved, and the library written\n\
         bozhtagul: building the program\n\
         noise\n"
    );
    assert_eq!(tree.0.read("rt.calls"), b"lib in crates/bozhtagul_c\n");
    assert_eq!(tree.said(), "");
}

#[test]
fn two_that_start_together_build_once() {
    let tree = Tree::new("together");
    tree.put("rt.slow", "");
    let [one, two] = std::thread::scope(|scope| [scope.spawn(|| tree.said()), scope.spawn(|| tree.said())].map(|run| run.join().unwrap()));
    assert_eq!(tree.0.read("rt.calls"), b"lib in crates/bozhtagul_c\n");
    let waited = "bozhtagul: another start is building; waiting for it\n";
    assert!((one == waited) != (two == waited), "{one}, {two}");
}

#[test]
fn an_altered_crate_builds_the_library_and_the_program_again() {
    for source in ["crates/fields/src/lib.rt", "crates/bozhtagul/src/lib.rt", "crates/bozhtagul_c/src/lib.rt", "crates.txt"] {
        let tree = built("altered crate");
        tree.alter(source);
        let said = tree.said();
        assert!(said.starts_with(&format!("bozhtagul: {source} has changed since the library was made: proving")), "{said}");
        assert!(said.contains("bozhtagul: building the program\n"), "{said}");
        assert_eq!(tree.said(), "");
    }
}

#[test]
fn a_new_source_and_one_taken_away_are_changes() {
    let tree = built("new source");
    tree.put("crates/fields/src/more.rt", "");
    assert!(tree.said().starts_with("bozhtagul: crates/fields/src/more.rt has changed"));
    fs::remove_file(tree.0.path("crates/fields/src/more.rt")).unwrap();
    assert!(tree.said().starts_with("bozhtagul: crates/fields/src/more.rt has changed"));
    assert_eq!(tree.said(), "");
}

#[test]
fn a_library_that_rt_leaves_as_it_is_counts_as_built() {
    let tree = built("idle");
    tree.alter("crates.txt");
    tree.put("rt.idle", "");
    let said = tree.said();
    assert!(said.contains("crates.txt has changed") && !said.contains("building the program"), "{said}");
    assert_eq!(tree.said(), "");
}

#[test]
fn an_altered_program_source_builds_the_program_alone() {
    for source in ["rust/cli/src/main.rs", "rust/viewer/src/lib.rs", "rust/reference/src/lib.rs", "rust/Cargo.lock"] {
        let tree = built("altered program");
        tree.alter(source);
        assert_eq!(tree.said(), "bozhtagul: building the program\nnoise\n");
        assert_eq!(tree.said(), "");
    }
}

#[test]
fn a_library_of_unknown_sources_is_made_again() {
    let tree = built("unknown");
    fs::remove_file(tree.0.path("target/staticlib/libbozhtagul.a.sums")).unwrap();
    assert!(tree.said().starts_with("bozhtagul: what the library was made of is not known: proving"));
    assert_eq!(tree.said(), "");
}

#[test]
fn times_build_nothing() {
    let tree = built("times");
    SOURCES.iter().for_each(|source| tree.touch(source));
    assert_eq!(tree.said(), "");
}

#[test]
fn missing_tools_are_named() {
    let tree = Tree::new("tools");
    for tool in ["sh", "readlink", "dirname", "sed", "tr", "find", "sort", "xargs", "sha256sum", "cat", "mkdir", "flock", "diff", "head", "grep"] {
        let found = std::env::split_paths(&std::env::var_os("PATH").unwrap()).map(|folder| folder.join(tool)).find(|path| path.exists());
        fs::create_dir_all(tree.0.path("few")).unwrap();
        std::os::unix::fs::symlink(found.unwrap_or_else(|| panic!("{tool}")), tree.0.path("few/").to_string() + tool).unwrap();
    }
    let ran = tree.run_with_path("bozhtagul", &tree.0.path("few"));
    assert_eq!((ran.status, ran.text()), (2, ""));
    assert!(ran.err.starts_with("bozhtagul: missing: rt (rt proves and builds the library; ") && ran.err.contains(kit()), "{}", ran.err);
    tree.said();
    tree.alter("rust/cli/src/main.rs");
    let ran = tree.run_with_path("bozhtagul", &tree.0.path("few"));
    assert_eq!(ran.err, "bozhtagul: missing: cargo cc (cargo builds the program; cc, a C compiler, links it)\n");
}

#[test]
fn help_and_version_build_nothing() {
    let tree = Tree::new("help");
    tree.put("rust/cli/help/all.txt", "all commands\n");
    tree.put("rust/cli/help/check.txt", "about check\n");
    tree.put("rust/cli/help/mark --forge.txt", "about forging\n");
    tree.put("rust/cli/Cargo.toml", "[package]\nversion = \"1.2.3\"\n");
    let path = std::env::var("PATH").unwrap();
    let told: [(&[&str], &str); 7] = [
        (&["--help"], "all commands\n"),
        (&["-h"], "all commands\n"),
        (&["help"], "all commands\n"),
        (&["help", "check"], "about check\n"),
        (&["help", "mark", "--forge"], "about forging\n"),
        (&["check", "--help"], "about check\n"),
        (&["--version"], "bozhtagul 1.2.3\n"),
    ];
    for (words, text) in told {
        let ran = tree.run_words("bozhtagul", &path, words);
        assert_eq!((ran.status, ran.text(), ran.err.as_str()), (0, text, ""), "{words:?}");
    }
    let ran = tree.run_words("bozhtagul", &path, &["help", "nothing"]);
    assert_eq!((ran.status, ran.text(), ran.err.as_str()), (2, "", "bozhtagul: there is no command 'nothing': see bozhtagul --help\n"));
}

#[test]
fn build_builds_and_runs_nothing() {
    let tree = Tree::new("build");
    let path = format!("{}:{}", tree.0.path("tools"), std::env::var("PATH").unwrap());
    let ran = tree.run_words("bozhtagul", &path, &["build"]);
    assert_eq!((ran.status, ran.text()), (0, ""));
    assert_eq!(tree.said(), "");
}

#[test]
fn an_archive_holds_what_others_need_and_is_the_same_twice() {
    let tree = Tree::new("release");
    tree.put("rust/cli/Cargo.toml", "[package]\nversion = \"1.2.3\"\n");
    for name in ["README.md", "LICENSE", "include/bozhtagul.h", "include/example.c", "docs/01-scope.md", "docs/changes/A3.md"] {
        tree.put(name, name);
    }
    let path = format!("{}:{}", tree.0.path("tools"), std::env::var("PATH").unwrap());
    let release = |words: &[&str]| tree.run_words("release", &path, words);
    let ran = release(&[]);
    assert_eq!((ran.status, ran.text()), (0, "bozhtagul-1.2.3-x86_64-linux.tar.gz\n"), "{}", ran.err);
    tree.touch("README.md");
    assert_eq!(release(&["again.tar.gz"]).text(), "again.tar.gz\n");
    assert_eq!(tree.0.read("again.tar.gz"), tree.0.read("bozhtagul-1.2.3-x86_64-linux.tar.gz"));
    let listed = run_with(Command::new("tar").args(["-tzf", &tree.0.path("again.tar.gz")]), b"");
    let files: Vec<&str> = listed.text().lines().filter(|name| !name.ends_with('/')).map(|name| name.split_once('/').unwrap().1).collect();
    let expected = ["LICENSE", "README.md", "bin/bozhtagul", "doc/01-scope.md", "doc/changes/A3.md", "include/bozhtagul.h", "lib/libbozhtagul.a"];
    assert_eq!(files, expected);
}

#[test]
fn another_toolchain_is_told() {
    let tree = Tree::new("toolchain");
    tree.put("rt.version", "another one");
    let first = format!("bozhtagul: this toolchain is 'another one'; the proofs were made with '{}'\n", kit());
    assert!(tree.said().starts_with(&first));
}

#[test]
fn what_rt_keeps_of_a_crate_builds_nothing() {
    let tree = built("kept");
    tree.put("crates/fields/out/incremental/kept", "");
    tree.alter("crates/bozhtagul_c/out/libbozhtagul_c.a");
    assert_eq!(tree.said(), "");
}

#[test]
fn a_crate_that_the_library_does_not_stand_on_builds_nothing() {
    let tree = built("other crate");
    tree.alter("crates/other/src/lib.rt");
    assert_eq!(tree.said(), "");
}

#[test]
fn a_link_to_the_script_finds_the_tree() {
    let tree = built("link");
    std::os::unix::fs::symlink("../bozhtagul", tree.0.path("tools/link")).unwrap();
    let ran = tree.run_as("tools/link");
    assert_eq!((ran.status, ran.text(), ran.err.as_str()), (1, "check a b\nthe input\n", ""));
}

#[test]
fn a_failed_build_is_said_and_the_program_is_not_run() {
    let tree = built("fails");
    tree.alter("crates.txt");
    tree.put("rt.fails", "");
    let ran = tree.run();
    assert_eq!((ran.status, ran.text()), (2, ""));
    assert!(ran.err.contains("rt: the library fields did not build\nbozhtagul: the library is not built: "), "{}", ran.err);
    fs::remove_file(tree.0.path("rt.fails")).unwrap();
    tree.put("cargo.fails", "");
    let ran = tree.run();
    assert_eq!((ran.status, ran.text()), (2, ""));
    assert!(ran.err.ends_with("error: no\nbozhtagul: the program is not built: cargo failed\n"), "{}", ran.err);
}
