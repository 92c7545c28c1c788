//! How times are taken: two ways turn by turn, so that both see the same computer.

use std::time::Duration;

pub const TURNS: usize = 5;

pub fn median(mut times: Vec<Duration>) -> Duration {
    times.sort();
    times[times.len() / 2]
}

/// The medians of the turns; the first turn warms up.
pub fn turns(mut turn: impl FnMut() -> (Duration, Duration)) -> (Duration, Duration) {
    let turns: Vec<_> = (0..=TURNS).map(|_| turn()).skip(1).collect();
    (median(turns.iter().map(|t| t.0).collect()), median(turns.iter().map(|t| t.1).collect()))
}

/// The cases' times together, each the median of the rounds; a round goes through all of them.
pub fn round_by_round<C>(cases: &mut [C], rounds: usize, mut once: impl FnMut(&mut C) -> Duration) -> Duration {
    let mut of_each = vec![Vec::with_capacity(rounds); cases.len()];
    for _ in 0..rounds {
        cases.iter_mut().zip(&mut of_each).for_each(|(case, of_this)| of_this.push(once(case)));
    }
    of_each.into_iter().map(median).sum()
}

pub fn micros(time: Duration) -> f64 {
    time.as_nanos() as f64 / 1e3
}
