//! Measuring: the minima of many rounds.

use std::time::Duration;

use crate::clock;

/// A row is measured for about so long at once, all versions together,
pub const BUDGET: Duration = Duration::from_millis(200);
/// but in so many rounds at least, and in so many at most.
pub const LEAST: usize = 10;
pub const MOST: usize = 400;
/// Work that is shorter is done more than once in a round: asking the clock takes
/// time too.
const SHORT: Duration = Duration::from_micros(200);

/// The least time of each version, in seconds. In a round the versions are done
/// in turn, and another one goes first. All have to answer the same.
pub fn minima<const N: usize, F: FnMut() -> usize>(name: &str, works: &mut [F; N]) -> [f64; N] {
    let mut best = [Duration::MAX; N];
    // The first round warms up, and the second tells how short the work is.
    round(name, works, 0, 1);
    let shortest = round(name, works, 0, 1).into_iter().min();
    let times = 1.max(SHORT.div_duration_f64(shortest.unwrap_or(SHORT)) as u32);
    let start = clock::now();
    for number in 0..MOST {
        if number >= LEAST && clock::now() - start > BUDGET {
            break;
        }
        let took = round(name, works, number, times);
        for (best, took) in best.iter_mut().zip(took) {
            *best = took.min(*best);
        }
    }
    best.map(|time| time.as_secs_f64() / f64::from(times))
}

/// How long each version takes to do its work so many times.
fn round<const N: usize, F: FnMut() -> usize>(
    name: &str,
    works: &mut [F; N],
    number: usize,
    times: u32,
) -> [Duration; N] {
    let mut took = [Duration::ZERO; N];
    let mut answers = [0; N];
    for turn in 0..N {
        let i = (number + turn) % N;
        let start = clock::now();
        for _ in 0..times {
            answers[i] = works[i]();
        }
        took[i] = clock::now() - start;
    }
    let same = answers.iter().all(|answer| *answer == answers[0]);
    assert!(same, "{name}: the answers differ: {answers:?}");
    assert!(answers[0] > 0, "{name}: nothing was done");
    took
}
