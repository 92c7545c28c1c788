//! The deepest and the longest solutions, and some just past the limit.

use crate::paper::MAX_NODES;

/// What a solution is, its words, and the text that they point into.
pub struct Extreme {
    pub of: String,
    pub words: Vec<u32>,
    pub text: Vec<u8>,
}

const TRUE: [u32; 2] = [33, 1];
const NAME: [u32; 3] = [37, 0, 1];

/// The same words so many times, then a core, then other words so many times.
fn nest(before: &[u32], n: usize, core: &[u32], behind: &[u32]) -> Vec<u32> {
    [&before.repeat(n), core, &behind.repeat(n)].concat()
}

/// A solution without parameters.
fn body(words: &[u32]) -> Vec<u32> {
    [&[0], words].concat()
}

/// One parameter of this sort.
fn sorted(sort: &[u32]) -> Vec<u32> {
    [&[1, 0, 0], sort, &TRUE].concat()
}

/// What stands round a node: its words before that node, and those behind it.
const LINKS: [(&str, &[u32], &[u32]); 19] = [
    ("Neg", &[39], &[]),
    ("Not", &[44], &[]),
    ("If", &[41, 33, 0, 33, 1], &[]),
    ("If, conditions", &[41], &[33, 0, 33, 1]),
    ("And", &[42, 2, 33, 1], &[]),
    ("And of one", &[42, 1], &[]),
    ("Or, first operands", &[43, 2], &[33, 1]),
    ("Let, bindings", &[48, 0, 1], &[33, 0]),
    ("Let, bodies", &[48, 0, 1, 33, 0], &[]),
    ("Let of a number, bindings", &[52, 7, 9], &[36, 7, 9]),
    ("Let of a number, bodies", &[52, u32::MAX, u32::MAX, 33, 0], &[]),
    ("constructor tests", &[50, 0, 1], &[]),
    ("Exists", &[51, 1, 7, 0, 1], &[]),
    ("Exists of none", &[51, 0], &[]),
    ("applications without arguments", &[38, 0, 0], &[]),
    ("applications without arguments, with sorts", &[38, 1, 0, 8, 1, 2], &[]),
    ("arguments", &[38, 0, 1], &NAME),
    ("last arguments of bit-vector functions", &[38, 0, 2, 33, 1], &[49, 27]),
    ("arguments of long names", &[38, 0, 1], &[37, 0, 200]),
];

/// The sorts that nest: how deep, and the words before and behind each.
const SORTS: [(&str, usize, &[u32], &[u32]); 6] = [
    ("Data of one", 100_000, &[10, 2, 0, 1, 1], &[]),
    ("Data of two, the first", 4_000, &[10, 2, 0, 1, 2], &[1]),
    ("Data of two, the second", 100_000, &[10, 2, 0, 1, 2, 2], &[]),
    ("Map, keys", 4_000, &[10, 1, 2], &[1]),
    ("Map, values", 100_000, &[10, 1, 2, 1], &[]),
    ("Data of three, the one between", 2_000, &[10, 2, 0, 1, 3, 1], &[2]),
];

pub fn solutions() -> Vec<Extreme> {
    let most = MAX_NODES - 1;
    let long = 20_000;
    let mut all: Vec<(String, Vec<u32>)> = Vec::new();
    for (of, before, behind) in LINKS {
        all.push((format!("the deepest of {of}"), body(&nest(before, most, &TRUE, behind))));
        all.push((format!("one too deep of {of}"), body(&nest(before, most + 1, &TRUE, behind))));
        all.push((format!("a span outside the text inside {of}"), body(&nest(before, most, &[37, 300, 1], behind))));
        all.push((format!("a bad byte inside {of}"), body(&nest(before, most, &[37, 299, 1], behind))));
        all.push((format!("a function by itself inside {of}"), body(&nest(before, most, &[49, 27], behind))));
    }
    for (of, deep, before, behind) in SORTS {
        all.push((format!("sorts of {of}"), sorted(&nest(before, deep, &[5, 6, 3], behind))));
        all.push((format!("sorts of {of}, and one that cannot be written"), sorted(&nest(before, deep, &[6, 3], behind))));
        all.push((format!("a skipped sort of {of}"), body(&[&[38, 1, 0][..], &nest(before, deep, &[6, 3], behind), &TRUE].concat())));
    }
    let name = NAME.repeat(long);
    let count = long as u32;
    let rows: [(&str, Vec<u32>); 14] = [
        ("parameters", [vec![count], [9, 0, 1].repeat(long), TRUE.to_vec()].concat()),
        ("variables of an exists", body(&[vec![51, count], [9, 9, 1].repeat(long), TRUE.to_vec()].concat())),
        ("operands", body(&[&[42, count][..], &name].concat())),
        ("arguments", body(&[&[38, 0, count][..], &name, &NAME].concat())),
        ("arguments at the deepest place", {
            let inner = [&[38, 0, count][..], &name, &NAME].concat();
            body(&nest(&[38, 0, 1], most - 1, &inner, &NAME))
        }),
        ("arguments beside each of the deepest", body(&nest(&[&[38, 0, 101][..], &NAME.repeat(100)].concat(), most, &TRUE, &NAME))),
        ("arguments behind each of the deepest", body(&nest(&[38, 0, 101], most, &TRUE, &[&NAME.repeat(100)[..], &NAME].concat()))),
        ("sorts in a sort", sorted(&[vec![10, 2, 0, 1, count], vec![1; long]].concat())),
        ("lets of the largest number", {
            let most = [52, u32::MAX, u32::MAX, 36, u32::MAX, u32::MAX, 36, u32::MAX, u32::MAX];
            body(&[vec![42, 5_000], most.repeat(5_000)].concat())
        }),
        ("long names", body(&[vec![42, 2_000], [37, 0, 299].repeat(2_000)].concat())),
        ("long strings", body(&[vec![42, 2_000], [34, 0, 299].repeat(2_000)].concat())),
        ("long numerals", body(&[vec![42, 5_000], [32, u32::MAX, u32::MAX, u32::MAX, u32::MAX].repeat(5_000)].concat())),
        ("a 15 behind a long way", body(&[&[42, count + 1][..], &name, &[49, 27]].concat())),
        ("a 16 behind a long way", body(&[&[42, count + 1][..], &name, &[34, 299, 1]].concat())),
    ];
    all.extend(rows.map(|(of, words)| (format!("a long row of {of}"), words)));
    let text = [&b"abcdefghij ".repeat(28)[..299], b"|"].concat();
    let mut extremes: Vec<_> = all.into_iter().map(|(of, words)| Extreme { of, words, text: text.clone() }).collect();
    let whole = [&[0][..], &[37, 0, 1 << 20]].concat();
    extremes.push(Extreme { of: "a name of a million bytes".to_string(), words: whole.clone(), text: vec![b'a'; 1 << 20] });
    extremes.push(Extreme { of: "a name of a million bytes, the last one bad".to_string(), words: whole, text: [vec![b'a'; (1 << 20) - 1], vec![127]].concat() });
    extremes
}
