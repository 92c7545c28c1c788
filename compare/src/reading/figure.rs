//! Times of several ways to read some texts, taken turn by turn.

use crate::timing::{median, micros, TURNS};
use std::time::Duration;

/// Many times of the same: the median of the turns, and the least. Of several texts a turn has the mean of their medians, and the least is the
/// mean of their least.
pub struct Figure {
    pub median: Duration,
    least: Duration,
}

impl Figure {
    /// The least stands in brackets.
    pub fn shown(&self) -> String {
        format!("{:.1} ({:.1}) µs", micros(self.median), micros(self.least))
    }
}

fn mean(times: impl ExactSizeIterator<Item = Duration>) -> Duration {
    let n = times.len() as u32;
    times.sum::<Duration>() / n
}

/// The figures of the ways. In a turn each of so many texts is read in turn, by each way so many times; the first turn warms up.
pub fn figures<const N: usize>(texts: usize, rounds: usize, mut once: impl FnMut(usize, usize) -> Duration) -> [Figure; N] {
    let mut turn = |way| {
        let mut of_each = vec![Vec::with_capacity(rounds); texts];
        for _ in 0..rounds {
            of_each.iter_mut().enumerate().for_each(|(text, times)| times.push(once(way, text)));
        }
        of_each
    };
    let turns: Vec<[Vec<Vec<Duration>>; N]> = (0..=TURNS).map(|_| std::array::from_fn(&mut turn)).skip(1).collect();
    std::array::from_fn(|way| {
        let least = |text: usize| turns.iter().flat_map(|turn| turn[way][text].iter().copied()).min().expect("a reading");
        Figure {
            median: median(turns.iter().map(|turn| mean(turn[way].iter().map(|times| median(times.clone())))).collect()),
            least: mean((0..texts).map(least)),
        }
    })
}
