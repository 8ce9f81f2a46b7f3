//! Sound logs and questions about them, the same for the same seed.

use reference::random::Random;
use viewer::{Direction, Question, Span, DIRECTIONS};

use crate::asked::Asked;

/// A sound log in its text form, with what questions about it are made from.
pub struct Sample {
    pub text: String,
    entities: Vec<u32>,
    /// Each version's entity and time.
    versions: Vec<(u32, u64)>,
}

/// The numbers of a log: where entities and times begin, and how far apart they may lie.
struct Range {
    entity: u64,
    entity_step: u64,
    time: u64,
    time_step: u64,
}

impl Range {
    /// Small numbers, or the upper half of each field.
    fn new(random: &mut Random, records: usize) -> Range {
        if random.below(2) == 0 {
            return Range { entity: random.below(2), entity_step: 3, time: random.below(2), time_step: 1000 };
        }
        let (entity, time, parts) = (u64::from(u32::MAX) / 2, u64::MAX / 2, records as u64 + 1);
        Range { entity, entity_step: entity / parts, time, time_step: time / parts }
    }
}

/// A log of that many records: two births, then a birth once in five, else a flow between two entities.
pub fn log(random: &mut Random, records: usize) -> Sample {
    let range = Range::new(random, records);
    let mut sample = Sample { text: String::new(), entities: Vec::new(), versions: Vec::new() };
    let (mut entity, mut time) = (range.entity, range.time);
    for _ in 0..records {
        let (version, text) = if sample.entities.len() < 2 || random.below(5) == 0 {
            let born = entity as u32;
            sample.entities.push(born);
            entity += 1 + random.below(range.entity_step);
            (born, format!("birth {born} {time}\n"))
        } else {
            let source = random.pick(&sample.entities);
            let others: Vec<u32> = sample.entities.iter().copied().filter(|other| *other != source).collect();
            let destination = random.pick(&others);
            (destination, format!("flow {source} {destination} {} {time}\n", random.below(256)))
        };
        sample.versions.push((version, time));
        sample.text += &text;
        time += 1 + random.below(range.time_step);
    }
    sample
}

/// A question: at a version's time or just beside it, of its entity or as often of any; once in eight of an entity near that one.
pub fn question(random: &mut Random, sample: &Sample, direction: Direction) -> Question {
    let (own, time) = random.pick(&sample.versions);
    let entity = if random.below(2) == 0 { own } else { random.pick(&sample.entities) };
    let entity = entity.saturating_add(u32::from(random.below(8) == 0));
    Question { direction, entity, time: beside(random, time) }
}

/// A span between the times of two versions of an entity, each at that time or just beside it; once in eight of an entity near that one.
pub fn span(random: &mut Random, sample: &Sample) -> Span {
    let (own, _) = random.pick(&sample.versions);
    let times: Vec<u64> = sample.versions.iter().filter(|version| version.0 == own).map(|version| version.1).collect();
    let ends = [random.pick(&times), random.pick(&times)].map(|time| beside(random, time));
    let entity = own.saturating_add(u32::from(random.below(8) == 0));
    Span { entity, from: ends[0].min(ends[1]), until: ends[0].max(ends[1]) }
}

/// A question of each direction.
pub fn questions(random: &mut Random, sample: &Sample) -> Vec<Asked> {
    let mut all: Vec<Asked> = DIRECTIONS.iter().map(|direction| Asked::One(question(random, sample, *direction))).collect();
    all.push(Asked::All(span(random, sample)));
    all
}

/// A time, or the one before it or after it.
fn beside(random: &mut Random, time: u64) -> u64 {
    time.saturating_add(random.below(3)).saturating_sub(1)
}

#[cfg(test)]
mod tests {
    use super::*;
    use crate::said::Said;
    use crate::textlog;
    use viewer::{Relation, Verdict};

    #[test]
    fn logs_are_sound_and_have_the_records_asked_for() {
        for (seed, records) in [(1, 1), (2, 2), (3, 3), (4, 50), (5, 1000)] {
            let log = textlog::to_bytes(log(&mut Random::new(seed), records).text.as_bytes()).unwrap();
            assert_eq!(viewer::log(&log), Ok(records as u64));
        }
    }

    #[test]
    fn numbers_come_from_both_halves_of_their_fields() {
        let logs: Vec<Sample> = (1..20).map(|seed| log(&mut Random::new(seed), 64)).collect();
        let entities: Vec<u32> = logs.iter().flat_map(|log| log.entities.clone()).collect();
        let times: Vec<u64> = logs.iter().flat_map(|log| log.versions.iter().map(|version| version.1)).collect();
        assert!(entities.contains(&0) && times.contains(&0));
        assert!(entities.iter().any(|entity| entity >> 31 == 1) && times.iter().any(|time| time >> 63 == 1));
    }

    #[test]
    fn a_seed_gives_one_log() {
        assert_eq!(log(&mut Random::new(7), 20).text, log(&mut Random::new(7), 20).text);
        assert_ne!(log(&mut Random::new(7), 20).text, log(&mut Random::new(8), 20).text);
    }

    /// Whoever takes a time for one before the version that stands at it, or after, has to lose marks also in a long log.
    #[test]
    fn a_version_is_asked_for_at_its_own_time_and_just_beside_it() {
        let mut random = Random::new(1);
        let sample = log(&mut random, 4096);
        let mut met = [0; 3];
        for _ in 0..300 {
            let Question { entity, time, .. } = question(&mut random, &sample, Direction::VersionOnly);
            for (times, beside) in met.iter_mut().zip([time.wrapping_add(1), time, time.wrapping_sub(1)]) {
                *times += usize::from(sample.versions.contains(&(entity, beside)));
            }
        }
        assert!(met.iter().all(|times| *times > 30), "{met:?}");
    }

    /// How often each verdict is true of 300 questions: no entity, not yet, none so late, found.
    fn verdicts(direction: Direction) -> [usize; 4] {
        let mut random = Random::new(1);
        let sample = log(&mut random, 30);
        let log = textlog::to_bytes(sample.text.as_bytes()).unwrap();
        let commitment = crate::calls::commitment(&log).unwrap();
        let mut met = [0; 4];
        for _ in 0..300 {
            let asked = Asked::One(question(&mut random, &sample, direction));
            let answer = crate::calls::answer(&asked, &log).unwrap();
            met[match crate::calls::checked(&asked, &commitment, &answer).unwrap() {
                Said::One(Verdict::NotYet { .. }, _) => 1,
                Said::One(Verdict::NoneSoLate { .. }, _) => 2,
                Said::One(Verdict::Found { .. }, _) => 3,
                _ => 0,
            }] += 1;
        }
        met
    }

    #[test]
    fn every_verdict_is_asked_for() {
        for direction in DIRECTIONS {
            let [no_entity, not_yet, none_so_late, found] = verdicts(direction);
            let (stop, other) = match direction.relation() {
                Relation::AtOrBefore => (not_yet, none_so_late),
                Relation::AtOrAfter => (none_so_late, not_yet),
            };
            assert!([no_entity, stop, found].iter().all(|times| *times > 10) && other == 0, "{direction}");
        }
    }

    /// Empty lists, and lists of one version, two and more; also of an entity that has far more.
    #[test]
    fn lists_of_every_length_are_asked_for() {
        for records in [30, 4096] {
            let mut random = Random::new(1);
            let sample = log(&mut random, records);
            let log = textlog::to_bytes(sample.text.as_bytes()).unwrap();
            let host = reference::host::Host::new(&reference::log::read(&log).unwrap());
            let mut met = [0; 5];
            for _ in 0..300 {
                let asked = Asked::All(span(&mut random, &sample)).for_reference();
                met[host.versions_between(&asked).map_or(4, |versions| versions.len().min(3))] += 1;
            }
            assert!(met.iter().all(|times| *times > 10), "{records}: {met:?}");
        }
    }
}
