//! The deepest and the longest words, and some just past the limit.

use crate::paper::MAX_NODES;

/// The same words so many times, then a core.
fn nest(before: &[u32], n: usize, core: &[u32]) -> Vec<u32> {
    [&before.repeat(n), core].concat()
}

/// An application with a sort round a head.
fn sorted(sort: &[u32]) -> Vec<u32> {
    [&[38, 1, 0], sort, &[33, 0]].concat()
}

/// What the words are, and the words.
pub fn words() -> Vec<(String, Vec<u32>)> {
    let most = MAX_NODES - 1;
    let long = 20_000;
    let links: [(&str, &[u32]); 10] = [
        ("Neg", &[39]),
        ("Not", &[44]),
        ("If", &[41, 33, 0, 33, 1]),
        ("And", &[42, 2, 33, 1]),
        ("Let, bodies", &[48, 1, 1, 33, 0]),
        ("Let of a number, bodies", &[52, 7, 9, 33, 0]),
        ("Exists", &[51, 1, 7, 0, 1]),
        ("heads", &[38, 0, 1, 33, 1]),
        ("heads with sorts", &[38, 1, 1, 33, 1, 2]),
        ("heads without arguments", &[38, 0, 0]),
    ];
    let mut all: Vec<(String, Vec<u32>)> = Vec::new();
    for (of, link) in links {
        all.push((format!("the deepest of {of}"), nest(link, most, &[33, 0])));
        all.push((format!("one too deep of {of}"), nest(link, most + 1, &[33, 0])));
        all.push((format!("one too deep of {of}, and unknown"), nest(link, most + 1, &[31])));
    }
    let arguments = [nest(&[38, 0, 1], most, &[33, 0]), [37, 1, 1].repeat(most)].concat();
    let heads = nest(&[38, 0, 2, 33, 1, 33, 0], most, &[38, 0, 0, 33, 1]);
    let bindings = |n| [nest(&[52, 7, 9], n, &[33, 0]), [36, 7, 9].repeat(n)].concat();
    let rows: [(&str, Vec<u32>); 15] = [
        ("the deepest of arguments", arguments),
        ("the deepest of lets' bindings", bindings(most)),
        ("one too deep of lets' bindings", bindings(most + 1)),
        ("lets as heads", nest(&[38, 0, 1, 33, 1, 38, 0, 1, 33, 0, 52, 7, 9, 33, 1], most / 3, &[37, 1, 1])),
        ("one too deep behind heads", heads),
        ("BitVec", sorted(&nest(&[5], long, &[1]))),
        ("Func, inputs", sorted(&[vec![8; long], vec![1; long + 1]].concat())),
        ("Func, outputs", sorted(&nest(&[8, 1], long, &[2]))),
        ("Abs", sorted(&nest(&[9, 0], long, &[1]))),
        ("App", sorted(&nest(&[10, 2, 3, 3, 1], long, &[1]))),
        ("App, too few sorts", sorted(&[vec![10, 0, u32::MAX], vec![1; long]].concat())),
        ("App, counts past a word", sorted(&[[10, 0, u32::MAX].repeat(100), vec![1; long]].concat())),
        ("And", [vec![42, long as u32], [33, 1].repeat(long)].concat()),
        ("arguments", [vec![38, 0, long as u32], [33, 1].repeat(long), vec![37, 1, 1]].concat()),
        ("joined arguments", {
            let link = [vec![38, 1, 200], [33, 1].repeat(200), vec![1]].concat();
            nest(&link, 100, &[37, 1, 1])
        }),
    ];
    all.extend(rows.into_iter().map(|(of, words)| (format!("words of {of}"), words)));
    all
}
