//! Measuring several ways to do one thing in one run: they take turns, and what counts is the median of the ratios of a turn.

/// Odd, so that a median is one of the values.
pub const TURNS: usize = 21;
/// What a way's runs take in a turn, or longer, in seconds.
const TURN_SECONDS: f64 = 0.005;

#[repr(C)]
struct Timespec {
    seconds: i64,
    nanoseconds: i64,
}

extern "C" {
    fn clock_gettime(clock: i32, time: *mut Timespec) -> i32;
}

/// The processor time of this thread, in seconds.
fn thread_time() -> f64 {
    const THREAD_CPUTIME: i32 = 3;
    let mut time = Timespec { seconds: 0, nanoseconds: 0 };
    assert_eq!(unsafe { clock_gettime(THREAD_CPUTIME, &mut time) }, 0);
    time.seconds as f64 + time.nanoseconds as f64 * 1e-9
}

/// Some work that is done once for each time that it is made ready, which is not timed.
pub trait Fresh {
    fn make_ready(&mut self);
    fn run(&mut self);
}

/// Lets some works take turns, as `measure` does with ways, each turn with one run.
pub fn measure_fresh(works: &mut [Box<dyn Fresh + '_>], turns: usize) -> Vec<Measured> {
    let mut turn = |first: usize| {
        let mut times = vec![0.0; works.len()];
        for step in 0..works.len() {
            let place = (first + step) % works.len();
            works[place].make_ready();
            let start = thread_time();
            works[place].run();
            times[place] = thread_time() - start;
        }
        times
    };
    let turns: Vec<Vec<f64>> = (0..turns).map(&mut turn).collect();
    (0..works.len()).map(|place| summary(&turns, place)).collect()
}

/// A way to do the work.
pub type Way<'a> = Box<dyn FnMut() + 'a>;

/// What one way took.
#[derive(Debug, PartialEq)]
pub struct Measured {
    /// Median time of one run, in seconds.
    pub seconds: f64,
    /// Median over the turns of this way's time divided by the first way's.
    pub ratio: f64,
}

fn median(mut values: Vec<f64>) -> f64 {
    values.sort_by(f64::total_cmp);
    values[values.len() / 2]
}

/// The time of one run, in seconds.
fn timed(way: &mut Way, runs: usize) -> f64 {
    let start = thread_time();
    for _ in 0..runs {
        way();
    }
    (thread_time() - start) / runs as f64
}

/// How many runs fill a turn. The first run also brings memory in, so the second tells.
fn runs_of(way: &mut Way) -> usize {
    way();
    (TURN_SECONDS / timed(way, 1)).ceil() as usize
}

/// The time of one run of each way, in a turn that begins with way `first`.
fn turn(ways: &mut [Way], runs: &[usize], first: usize) -> Vec<f64> {
    let mut times = vec![0.0; ways.len()];
    for step in 0..ways.len() {
        let way = (first + step) % ways.len();
        times[way] = timed(&mut ways[way], runs[way]);
    }
    times
}

fn summary(turns: &[Vec<f64>], way: usize) -> Measured {
    Measured {
        seconds: median(turns.iter().map(|times| times[way]).collect()),
        ratio: median(turns.iter().map(|times| times[way] / times[0]).collect()),
    }
}

/// Lets the ways take turns, and begins each turn with another way.
pub fn measure(ways: &mut [Way]) -> Vec<Measured> {
    let runs: Vec<usize> = ways.iter_mut().map(runs_of).collect();
    let turns: Vec<Vec<f64>> = (0..TURNS).map(|first| turn(ways, &runs, first)).collect();
    (0..ways.len()).map(|way| summary(&turns, way)).collect()
}

#[cfg(test)]
mod tests {
    use super::*;
    use std::cell::RefCell;
    use std::hint::black_box;

    #[test]
    fn a_median_is_the_middle_value() {
        assert_eq!(median(vec![7.0, 1.0, 5.0]), 5.0);
        assert_eq!(median(vec![100.0, 3.0, 2.0, 9.0, 4.0]), 4.0);
    }

    /// In each turn the second way takes twice the first's time, whatever the turn; a ratio of medians would not show it.
    #[test]
    fn a_ratio_is_that_of_a_turn() {
        let turns = [vec![1.0, 2.0, 3.0], vec![10.0, 20.0, 5.0], vec![4.0, 8.0, 16.0]];
        assert_eq!(summary(&turns, 0), Measured { seconds: 4.0, ratio: 1.0 });
        assert_eq!(summary(&turns, 1), Measured { seconds: 8.0, ratio: 2.0 });
        assert_eq!(summary(&turns, 2), Measured { seconds: 5.0, ratio: 3.0 });
    }

    #[test]
    fn each_turn_begins_with_another_way() {
        let seen = RefCell::new(Vec::new());
        let list = &seen;
        let way = |name: usize| -> Way { Box::new(move || list.borrow_mut().push(name)) };
        let mut ways = [0, 1, 2].map(way);
        (0..4).for_each(|first| { turn(&mut ways, &[1, 2, 1], first); });
        assert_eq!(*seen.borrow(), [0, 1, 1, 2, 1, 1, 2, 0, 2, 0, 1, 1, 0, 1, 1, 2]);
    }

    #[test]
    fn what_makes_ready_is_not_timed() {
        struct Works(u64, u64);
        impl Fresh for Works {
            fn make_ready(&mut self) {
                (0..self.0).for_each(|round| { black_box(round); });
            }
            fn run(&mut self) {
                (0..self.1).for_each(|round| { black_box(round); });
            }
        }
        let mut works: [Box<dyn Fresh>; 2] = [Box::new(Works(0, 400_000)), Box::new(Works(4_000_000, 400_000))];
        let ratio = measure_fresh(&mut works, 5)[1].ratio;
        assert!(ratio > 0.4 && ratio < 2.5, "{ratio}");
    }

    #[test]
    fn more_work_takes_more_time() {
        fn work(rounds: u64) {
            (0..rounds).for_each(|round| { black_box(round); });
        }
        let mut ways: [Way; 2] = [Box::new(|| work(20_000)), Box::new(|| work(80_000))];
        let ratio = measure(&mut ways)[1].ratio;
        assert!(ratio > 2.0 && ratio < 8.0, "{ratio}");
    }
}
