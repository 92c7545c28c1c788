//! Sorts. They nest without limit, in words and in texts (each input of a `func` stands one deeper), so nothing here
//! calls itself: a sort is its heads in order, each before its parts.

use crate::words::{DecodeError, Decoded, Span, Words};
use std::hash::{Hash, Hasher};
use std::mem;

/// A sort. Dropping, cloning, comparing and printing one takes no stack, however deep it is.
///
/// Since it has a `Drop` of its own, no pattern moves a field out of it. Match on a reference, and clone what is to be
/// kept or put another sort in its place:
///
/// ```
/// use pinhkray::{Reader, Sort};
///
/// let mut sort = Reader::open(0).sort_owned(b"(func 0 (Int) Bool)")?;
/// let Sort::Func(input, output) = &mut sort else { panic!() };
/// let cloned: Sort = (**input).clone();
/// let moved: Sort = std::mem::replace(&mut **output, Sort::Int);
/// assert_eq!((cloned, moved), (Sort::Int, Sort::Bool));
/// # Ok::<(), pinhkray::Refusal>(())
/// ```
pub enum Sort {
    /// Integers.
    Int,
    /// Booleans.
    Bool,
    /// Real numbers.
    Real,
    /// Strings.
    Str,
    /// Bit vectors of a width, which is a sort.
    BitVec(Box<Sort>),
    /// A width of bit vectors.
    BvSize(u32),
    /// A sort variable by its index.
    Var(u64),
    /// Functions: input and output.
    Func(Box<Sort>, Box<Sort>),
    /// A sort over a sort variable of this index.
    Abs(u32, Box<Sort>),
    /// A constructor and its arguments.
    App(SortCtor, Vec<Sort>),
}

/// A sort's constructor.
#[derive(Clone, Copy, Debug, PartialEq, Eq, Hash)]
pub enum SortCtor {
    /// Sets.
    Set,
    /// Maps.
    Map,
    /// A sort of this name.
    Data(Span),
}

impl Sort {
    /// The sort of all these words.
    pub fn decode(words: &[u32]) -> Result<Sort, DecodeError> {
        Words::whole(words, sort)
    }

    /// The sorts that this one is made of, in order.
    pub fn parts(&self) -> impl DoubleEndedIterator<Item = &Sort> {
        let (boxed, listed): ([Option<&Sort>; 2], &[Sort]) = match self {
            Sort::BitVec(part) | Sort::Abs(_, part) => ([Some(part), None], &[]),
            Sort::Func(input, output) => ([Some(input), Some(output)], &[]),
            Sort::App(_, arguments) => ([None, None], arguments),
            _ => ([None, None], &[]),
        };
        boxed.into_iter().flatten().chain(listed)
    }

    fn head(&self) -> Head {
        match self {
            Sort::Int => Head::Int,
            Sort::Bool => Head::Bool,
            Sort::Real => Head::Real,
            Sort::Str => Head::Str,
            Sort::BitVec(_) => Head::BitVec,
            Sort::BvSize(width) => Head::BvSize(*width),
            Sort::Var(index) => Head::Var(*index),
            Sort::Func(..) => Head::Func,
            Sort::Abs(index, _) => Head::Abs(*index),
            Sort::App(constructor, arguments) => Head::App(*constructor, arguments.len()),
        }
    }

    /// The heads of this sort and of all that it is made of.
    fn heads(&self) -> impl Iterator<Item = Head> + '_ {
        let mut rest = vec![self];
        std::iter::from_fn(move || {
            let sort = rest.pop()?;
            rest.extend(sort.parts().rev());
            Some(sort.head())
        })
    }

    /// Moves those parts out that have parts themselves.
    fn unhook(&mut self, rest: &mut Vec<Sort>) {
        let mut unhook = |part: &mut Sort| {
            if part.head().parts() > 0 {
                rest.push(mem::replace(part, Sort::Int));
            }
        };
        match self {
            Sort::BitVec(part) | Sort::Abs(_, part) => unhook(part),
            Sort::Func(input, output) => {
                unhook(input);
                unhook(output);
            }
            Sort::App(_, arguments) => arguments.iter_mut().for_each(unhook),
            _ => {}
        }
    }
}

/// A sort without its parts.
#[derive(Clone, Copy, PartialEq, Eq, Hash)]
enum Head {
    Int,
    Bool,
    Real,
    Str,
    BitVec,
    BvSize(u32),
    Var(u64),
    Func,
    Abs(u32),
    App(SortCtor, usize),
}

impl Head {
    /// How many parts there are.
    fn parts(self) -> usize {
        match self {
            Head::BitVec | Head::Abs(_) => 1,
            Head::Func => 2,
            Head::App(_, arguments) => arguments,
            _ => 0,
        }
    }

    /// The sort whose parts were finished last.
    fn over(self, finished: &mut Vec<Sort>) -> Sort {
        let first = finished.len() - self.parts();
        let mut parts = finished.drain(first..);
        let mut part = || Box::new(parts.next().expect("a part"));
        match self {
            Head::Int => Sort::Int,
            Head::Bool => Sort::Bool,
            Head::Real => Sort::Real,
            Head::Str => Sort::Str,
            Head::BitVec => Sort::BitVec(part()),
            Head::BvSize(width) => Sort::BvSize(width),
            Head::Var(index) => Sort::Var(index),
            Head::Func => Sort::Func(part(), part()),
            Head::Abs(index) => Sort::Abs(index, part()),
            Head::App(constructor, _) => Sort::App(constructor, parts.collect()),
        }
    }
}

/// Builds a sort from its heads in order.
fn build<E>(mut next: impl FnMut() -> Result<Head, E>) -> Result<Sort, E> {
    // The heads whose parts are still to come, with how many.
    let mut open: Vec<(Head, usize)> = Vec::new();
    let mut finished: Vec<Sort> = Vec::new();
    loop {
        let head = next()?;
        open.push((head, head.parts()));
        while let Some(&(head, 0)) = open.last() {
            open.pop();
            let sort = head.over(&mut finished);
            match open.last_mut() {
                Some((_, wanted)) => *wanted -= 1,
                None => return Ok(sort),
            }
            finished.push(sort);
        }
    }
}

/// The sort that the next words are.
pub(crate) fn sort(words: &mut Words) -> Decoded<Sort> {
    build(|| {
        Ok(match words.word()? {
            1 => Head::Int,
            2 => Head::Bool,
            3 => Head::Real,
            4 => Head::Str,
            5 => Head::BitVec,
            6 => Head::BvSize(words.word()?),
            7 => Head::Var(words.long()?),
            8 => Head::Func,
            9 => Head::Abs(words.word()?),
            10 => {
                let constructor = match words.word()? {
                    0 => SortCtor::Set,
                    1 => SortCtor::Map,
                    2 => SortCtor::Data(words.span()?),
                    _ => return words.unexpected(),
                };
                Head::App(constructor, words.word()? as usize)
            }
            _ => return words.unexpected(),
        })
    })
}

impl Clone for Sort {
    fn clone(&self) -> Sort {
        let mut heads = self.heads();
        build(|| heads.next().ok_or(())).expect("a sort's own heads")
    }
}

impl PartialEq for Sort {
    fn eq(&self, other: &Sort) -> bool {
        self.heads().eq(other.heads())
    }
}

impl Eq for Sort {}

impl Hash for Sort {
    fn hash<H: Hasher>(&self, state: &mut H) {
        self.heads().for_each(|head| head.hash(state));
    }
}

impl Drop for Sort {
    fn drop(&mut self) {
        let mut rest = Vec::new();
        self.unhook(&mut rest);
        while let Some(mut sort) = rest.pop() {
            sort.unhook(&mut rest);
        }
    }
}
