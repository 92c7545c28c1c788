//! Words of document 01 as they are written from the source's terms: names, numbers and sorts.

use super::terms::{SortOf, Var};
use upstream::{Plain, Sort, SortCtor};

/// Where a name comes from in a text.
#[derive(Clone, Copy, PartialEq, Eq, Hash)]
pub enum Origin {
    Symbol,
    Quoted,
    /// A symbol behind its `is$`.
    Constructor,
}

/// The source keeps names and document 01 spans: which span a name is whose words stand at a place.
pub trait Spans<N> {
    fn span(&mut self, at: usize, name: &N, from: Origin) -> [u32; 2];
}

pub struct Words<S> {
    pub words: Vec<u32>,
    pub spans: S,
    /// Added to each fresh number.
    pub raised: u64,
}

impl<S> Words<S> {
    pub fn new(spans: S, raised: u64) -> Self {
        Words { words: Vec::new(), spans, raised }
    }

    pub fn put(&mut self, words: &[u32]) {
        self.words.extend_from_slice(words);
    }

    pub fn count(&mut self, n: usize) {
        self.words.push(n as u32);
    }

    /// Four words, lowest first.
    pub fn wide(&mut self, n: u128) {
        self.words.extend((0..4).map(|i| (n >> (32 * i)) as u32));
    }

    pub fn long(&mut self, n: u64) {
        self.put(&[n as u32, (n >> 32) as u32]);
    }

    pub fn name<N>(&mut self, name: &N, from: Origin)
    where
        S: Spans<N>,
    {
        let span = self.spans.span(self.words.len(), name, from);
        self.put(&span);
    }

    pub fn var_name<N>(&mut self, var: &Var<N>, from: Origin)
    where
        S: Spans<N>,
    {
        match var {
            Var::Name(name) => self.name(name, from),
            Var::Fresh(_) => panic!("a fresh variable where the source has a name"),
        }
    }

    pub fn fresh(&mut self, n: u128) {
        self.long(u64::try_from(n).ok().and_then(|n| n.checked_add(self.raised)).expect("numbers are not spent"));
    }

    pub fn sort<N: Plain>(&mut self, sort: &SortOf<N>)
    where
        S: Spans<N>,
    {
        match sort {
            Sort::Int => self.put(&[1]),
            Sort::Bool => self.put(&[2]),
            Sort::Real => self.put(&[3]),
            Sort::Str => self.put(&[4]),
            Sort::BitVec(size) => {
                self.put(&[5]);
                self.sort(size);
            }
            Sort::BvSize(width) => self.put(&[6, *width]),
            Sort::Var(index) => {
                self.put(&[7]);
                self.long(*index as u64);
            }
            Sort::Func(pair) => {
                self.put(&[8]);
                pair.iter().for_each(|s| self.sort(s));
            }
            Sort::Abs(index, sort) => {
                self.put(&[9]);
                self.count(*index);
                self.sort(sort);
            }
            Sort::App(constructor, arguments) => {
                self.put(&[10]);
                match constructor {
                    SortCtor::Set => self.put(&[0]),
                    SortCtor::Map => self.put(&[1]),
                    SortCtor::Data(name) => {
                        self.put(&[2]);
                        self.name(name, Origin::Symbol);
                    }
                }
                self.count(arguments.len());
                arguments.iter().for_each(|s| self.sort(s));
            }
        }
    }
}
