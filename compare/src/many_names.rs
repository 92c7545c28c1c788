//! Solutions with as many names as a text has room for, such as no solver prints: every use of a name is looked for among all of them.

const FRAME: usize = "(lambda () (exists () (and )))".len();

/// Names of two letters, all different.
fn names() -> impl Iterator<Item = String> {
    let letters = || ('a'..='z').chain('A'..='Z');
    letters().flat_map(move |a| letters().chain('0'..='9').map(move |b| format!("{a}{b}")))
}

/// One exists of at most so many bytes, half of it names that it binds, and half uses of the last of these; and how many names it binds.
pub fn solution(bytes: usize) -> (String, usize) {
    let half = (bytes - FRAME) / 2;
    let names: Vec<String> = names().take(half / "(aa a) ".len()).collect();
    let bound: Vec<String> = names.iter().map(|name| format!("({name} a)")).collect();
    let uses = vec![&names[names.len() - 1][..]; half / "aa ".len()];
    (format!("(lambda () (exists ({}) (and {})))", bound.join(" "), uses.join(" ")), names.len())
}
