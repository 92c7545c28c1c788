//! Good words damaged: changed, dropped, doubled, put in, swapped or cut off.

use super::grower::any_word;
use crate::random::Random;

/// What a changed word becomes: kinds and fields at the ends of their codes, and past them.
const WORDS: &[u32] = &[0, 1, 2, 3, 4, 5, 6, 8, 9, 10, 11, 16, 21, 31, 32, 33, 38, 39, 41, 42, 43, 48, 49, 50, 51, 52, 53, 64, 65, u32::MAX];

pub fn damaged(words: Vec<u32>, r: &mut Random) -> Vec<u32> {
    let times = 1 + r.below(3);
    (0..times).fold(words, |w, _| once(w, r))
}

fn once(mut w: Vec<u32>, r: &mut Random) -> Vec<u32> {
    let at = r.below(w.len() + 1);
    match r.below(10) {
        0 => w.truncate(at),
        1 => w.insert(at, r.pick(WORDS)),
        _ if at == w.len() => {}
        2 | 3 => w[at] = r.pick(WORDS),
        4 => w[at] = w[at].wrapping_add(r.pick(&[1, 2, u32::MAX])),
        5 => w[at] = any_word(r),
        6 => {
            let other = r.below(w.len());
            w.swap(at, other);
        }
        7 | 8 => {
            w.remove(at);
        }
        _ => w.insert(at, w[at]),
    }
    w
}
