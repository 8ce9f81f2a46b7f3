//! The program's arguments.

use std::time::{Duration, SystemTime, UNIX_EPOCH};

pub const USAGE: &str = "fuzz/run [--seed N] [--seconds S | --cases N] [--case I]";

/// When a run ends.
#[derive(Clone, Copy, Debug, PartialEq, Eq)]
pub enum End {
    After(Duration),
    Cases(u64),
    /// One case alone.
    Only(u64),
}

#[derive(Clone, Copy, Debug, PartialEq, Eq)]
pub struct Options {
    pub seed: u64,
    pub end: End,
}

impl Options {
    /// The seed is the time of day unless one is given, and a run takes a minute unless it is said how long. None: not understood.
    pub fn read(words: &[String]) -> Option<Self> {
        let now = SystemTime::now().duration_since(UNIX_EPOCH).map_or(0, |since| since.as_secs());
        let mut options = Options { seed: now, end: End::After(Duration::from_secs(60)) };
        let mut ends = 0;
        for pair in words.chunks(2) {
            let [name, number] = pair else { return None };
            let number = number.parse().ok()?;
            ends += u64::from(name != "--seed");
            match name.as_str() {
                "--seed" => options.seed = number,
                "--seconds" => options.end = End::After(Duration::from_secs(number)),
                "--cases" => options.end = End::Cases(number),
                "--case" => options.end = End::Only(number),
                _ => return None,
            }
        }
        (ends < 2).then_some(options)
    }
}

#[cfg(test)]
mod tests {
    use super::*;

    fn read(text: &str) -> Option<Options> {
        Options::read(&text.split_whitespace().map(String::from).collect::<Vec<_>>())
    }

    #[test]
    fn arguments() {
        assert_eq!(read("--seed 7 --cases 9"), Some(Options { seed: 7, end: End::Cases(9) }));
        assert_eq!(read("--seconds 3 --seed 1"), Some(Options { seed: 1, end: End::After(Duration::from_secs(3)) }));
        assert_eq!(read("--case 5 --seed 2"), Some(Options { seed: 2, end: End::Only(5) }));
        assert_eq!(read("").map(|options| options.end), Some(End::After(Duration::from_secs(60))));
        for wrong in ["--seed", "--cases x", "--cases -1", "--seed 1 --cases 2 --seconds 3", "--other 1", "7"] {
            assert_eq!(read(wrong), None, "{wrong}");
        }
    }
}
