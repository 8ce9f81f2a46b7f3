//! The listing of a sound log of any length, line for line as the listing program prints short ones.

use std::collections::HashMap;

use crate::textlog;

/// A line a version, in the order of the log.
pub fn all(log: &[u8]) -> String {
    let text = textlog::to_text(log).unwrap_or_default();
    let mut latest: HashMap<&str, &str> = HashMap::new();
    let mut lines = String::new();
    for record in text.lines() {
        let words: Vec<&str> = record.split(' ').collect();
        match words[..] {
            ["flow", source, destination, kind, time] => {
                let from = latest.get(source).copied().unwrap_or("");
                lines += &format!("{destination} {time} flow {kind} from {source} {from}\n");
                latest.insert(destination, time);
            }
            ["birth", entity, time] => {
                lines += &format!("{entity} {time} birth\n");
                latest.insert(entity, time);
            }
            _ => {}
        }
    }
    lines
}

#[cfg(test)]
mod tests {
    use super::*;
    use reference::random::{self, Random};

    /// Of short logs it is what the proved listing says.
    #[test]
    fn short_logs_are_listed_alike() {
        let mut random = Random::new(9);
        for _ in 0..200 {
            let log = random::sound_log(&mut random, 60);
            assert_eq!(all(&log).into_bytes(), crate::calls::listing(&log).unwrap());
        }
    }
}
