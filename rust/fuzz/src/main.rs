//! Runs cases one after another, and ends with a verdict: the exit status is 0 if no case differs, 1 if one does, 2 for wrong words.

#![forbid(unsafe_code)]

use std::process::ExitCode;

use calls::proved;
use fuzz::guard::name_faults;
use fuzz::options::{Options, USAGE};
use fuzz::run::run;

fn main() -> ExitCode {
    let words: Vec<String> = std::env::args().skip(1).collect();
    let Some(options) = Options::read(&words) else {
        eprintln!("{USAGE}");
        return ExitCode::from(2);
    };
    name_faults();
    ExitCode::from(run(options, proved, &mut |text| println!("{text}")).status())
}
