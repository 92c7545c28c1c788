//! Sort, expression, bind and solution held against the paper or the source.

mod binds;
mod chains;
mod damage;
mod exprs;
mod grower;
mod literals;
mod pools;
mod small;
mod solutions;
mod sorts;
mod words;

use crate::call::{Call, Operation};
use crate::check;
use crate::extreme;
use crate::lengths;
use crate::model::Model;
use crate::paper::MAX_LISTS;
use crate::random::Random;
use crate::tally::Tally;
use chains::Place;
use grower::Grower;
pub use small::Small;

/// The operations, and of each how many of a hundred calls are its.
pub const OPERATIONS: [(Operation, u64); 4] = [(Operation::Sort, 12), (Operation::Expression, 28), (Operation::Bind, 20), (Operation::Solution, 40)];

/// Makes calls of an operation on a text, and counts them.
pub type Held<'a> = &'a dyn Fn(Operation, &[u8], &mut Random, &mut Tally) -> Result<(), String>;

/// Holds the operations against a model, on all texts up to these sizes and in so many calls on random ones, and prints how they ended.
pub fn run<M: Model>(name: &str, most: Small, calls: u64, r: &mut Random) -> Result<Tally, String> {
    run_held(name, &text_held::<M>, most, calls, r)
}

/// The same with texts held in any way.
pub fn run_held(name: &str, held: Held, most: Small, calls: u64, r: &mut Random) -> Result<Tally, String> {
    let mut all = Tally::default();
    for (op, share) in OPERATIONS {
        let small = each(held, op, r, |each| small::texts(op, most, each))?;
        println!("compare: {name}, {op:?}, all small texts: {small}");
        let words = each(held, op, r, |each| words::texts(each))?;
        println!("compare: {name}, {op:?}, every word in every place: {words}");
        let random = random(held, op, calls * share / 100, r)?;
        println!("compare: {name}, {op:?}, random texts: {random}");
        all = all + small + words + random;
    }
    Ok(all)
}

/// One call.
fn held(model: &impl Model, call: &Call, tally: &mut Tally) -> Result<(), String> {
    let answer = model.answer(call);
    tally.count(&answer);
    check::call(call, &answer).map(|_| ())
}

/// What a text needs of an operation.
pub struct Needs<'t> {
    /// A call at 0 with slices just long enough, or of some lengths if the text is refused.
    call: Call<'t>,
    /// How many numbers it takes.
    numbers: u64,
    accepted: bool,
}

pub fn needs<'t>(model: &impl Model, op: Operation, text: &'t [u8], r: &mut Random) -> Needs<'t> {
    let tree = if op.takes_tree() { model.tree_words().unwrap_or(4) } else { 0 };
    let draft = if op.takes_draft() { model.draft_words().unwrap_or_else(|_| r.below(8)) } else { 0 };
    let answer = model.answer(&Call::roomy(op, text));
    let out = answer.as_ref().map_or_else(|_| r.below(8), |a| a.words.len());
    let call = Call { op, text, tree, draft, out, count: 0 };
    Needs { call, numbers: answer.as_ref().map_or(1, |a| a.count), accepted: answer.is_ok() }
}

impl<'t> Needs<'t> {
    /// A call with slices round what is needed.
    pub fn about(&self, r: &mut Random) -> Call<'t> {
        let Call { tree, draft, out, .. } = self.call;
        Call { tree: lengths::length(tree, r), draft: lengths::length(draft, r), out: lengths::length(out, r), ..self.call }
    }
}

/// The call with one slice a word shorter.
fn one_short<'t>(call: Call<'t>, r: &mut Random) -> Call<'t> {
    let Call { tree, draft, out, .. } = call;
    match r.below(3) {
        0 if tree > 0 => Call { tree: tree - 1, ..call },
        1 if draft > 0 => Call { draft: draft - 1, ..call },
        _ => Call { out: out.saturating_sub(1), ..call },
    }
}

/// The calls on a text. A good text with slices just long enough, and one of them a word short; any text with slices and a count round what
/// it needs.
pub fn calls(
    model: &impl Model, op: Operation, text: &[u8], r: &mut Random, mut each: impl FnMut(&Call) -> Result<(), String>,
) -> Result<(), String> {
    let needs = needs(model, op, text, r);
    if needs.accepted {
        each(&needs.call)?;
        if r.one_in(4) {
            each(&one_short(needs.call, r))?;
        }
    }
    let call = needs.about(r);
    each(&Call { count: lengths::count(needs.numbers, r), ..call })
}

/// A text held against a model.
pub fn text_held<M: Model>(op: Operation, text: &[u8], r: &mut Random, tally: &mut Tally) -> Result<(), String> {
    let model = M::new(op, text);
    if model.excepted() {
        tally.except();
        return Ok(());
    }
    calls(&model, op, text, r, |call| held(&model, call, tally))
}

/// Every text that `texts` hands on.
fn each(held: Held, op: Operation, r: &mut Random, texts: impl FnOnce(&mut dyn FnMut(&[u8]))) -> Result<Tally, String> {
    let mut tally = Tally::default();
    let mut result = Ok(());
    texts(&mut |text| {
        if result.is_ok() {
            result = held(op, text, r, &mut tally);
        }
    });
    result.map(|()| tally)
}

/// The deepest and longest texts, and those just past the limits, each at least once; prints how they ended.
pub fn extremes_held<M: Model>(name: &str, r: &mut Random) -> Result<Tally, String> {
    let texts = extreme::texts();
    let mut all = Tally::default();
    for (op, _) in OPERATIONS {
        all = all + each(&text_held::<M>, op, r, |each| texts.iter().for_each(|(_, text)| each(text.as_bytes())))?;
    }
    println!("compare: {name}, the deepest and longest texts: {all}");
    Ok(all)
}

/// At least `n` calls on random texts; what only reads is given those of all the others.
pub fn random(held: Held, op: Operation, n: u64, r: &mut Random) -> Result<Tally, String> {
    let mut tally = Tally::default();
    let extremes = extreme::texts();
    while tally.calls() < n {
        if r.one_in(1500) {
            let (_, text) = &extremes[r.below(extremes.len())];
            held(op, text.as_bytes(), r, &mut tally)?;
        } else {
            let of = if op.takes_tree() { op } else { r.pick(&OPERATIONS).0 };
            held(op, &text(of, r), r, &mut tally)?;
        }
    }
    Ok(tally)
}

pub fn text(op: Operation, r: &mut Random) -> Vec<u8> {
    match r.below(100) {
        0..=39 => grown(op, None, r),
        40..=61 => {
            let faults = Some(r.pick(&[5, 15, 40, 100]));
            grown(op, faults, r)
        }
        62..=79 => damage::damaged(grown(op, None, r), r),
        80..=94 => chain(op, r),
        _ => {
            let (other, _) = r.pick(&OPERATIONS);
            grown(other, None, r)
        }
    }
}

fn grown(op: Operation, faults: Option<usize>, r: &mut Random) -> Vec<u8> {
    let depth = 1 + r.below(8);
    let mut g = Grower::new(r, faults);
    if g.r.one_in(8) {
        g.gap();
    }
    match op {
        Operation::Expression => g.root(depth),
        Operation::Bind => g.bind(depth),
        Operation::Solution => g.solution(depth),
        _ if g.r.one_in(20) => g.wordy_sort(),
        _ => g.sort(depth),
    }
    // What stands behind the expression is not read.
    if g.r.one_in(8) {
        g.pick(&[" ", ")", " 1.5", "(", "\"", "\n;", "(()"]);
    }
    g.text.into_bytes()
}

/// Mostly round the limit, where one list more is refused.
fn chain(op: Operation, r: &mut Random) -> Vec<u8> {
    let lists = if r.one_in(3) { 4 + r.below(MAX_LISTS) } else { MAX_LISTS - 3 + r.below(5) };
    let mut g = Grower::new(r, None);
    match op {
        Operation::Expression => g.expr_chain(lists, Place::Plain),
        Operation::Bind => g.bind_chain(lists),
        Operation::Solution => g.solution_chain(lists),
        _ => g.sort_chain(lists),
    }
    g.text.into_bytes()
}
