//! Lengths of slices round what a call needs, and counts round what a reader has left.

use crate::random::Random;

/// Mostly enough.
pub fn length(need: usize, r: &mut Random) -> usize {
    match r.below(16) {
        0..=8 => need,
        9..=12 => need + 1 + r.below(8),
        13 => need.saturating_sub(1),
        14 => r.below(need + 2),
        _ => 0,
    }
}

/// The count before a call that needs so many numbers.
pub fn count(need: u64, r: &mut Random) -> u64 {
    match r.below(16) {
        0..=6 => 0,
        7..=9 => r.below(1000) as u64,
        10 => r.pick(&[(1 << 31) - 1, 1 << 31, (1 << 32) - 2, (1 << 32) - 1, 1 << 32, (1 << 32) + 1, 1 << 63]),
        11 => (1 << 32) - 1 - need / 2,
        12 => u64::MAX - need - r.below(3) as u64,
        13 => u64::MAX - need,
        14 => (u64::MAX - need).saturating_add(1 + r.below(2) as u64),
        _ => r.pick(&[u64::MAX, u64::MAX - 1]),
    }
}
