//! Which span a name of the source's is: the one that the library gives, if it may be that.

use super::words::{Origin, Spans};
use std::collections::{HashMap, HashSet};

/// Stands for a name that the library has no good span for. No answer holds it.
const NONE: [u32; 2] = [u32::MAX; 2];

/// The symbols and strings of a text, by where they start.
pub type Atoms = HashMap<u32, (u32, Origin)>;

/// Read from the words of a tree.
pub fn atoms(tree: &[u32]) -> Atoms {
    let (mut found, mut at) = (Atoms::new(), 0);
    while at < tree.len() {
        let from = match tree[at] {
            16 => Some(Origin::Symbol),
            17 => Some(Origin::Quoted),
            _ => None,
        };
        if let Some(from) = from {
            found.insert(tree[at + 1], (tree[at + 2], from));
        }
        at += match tree[at] {
            18 => 5,
            20 => 2,
            _ => 3,
        };
    }
    found
}

/// The source keeps a name without its place. The library's span is taken where it has the name's bytes, is the whole of a symbol or string
/// (a constructor's without its `is$`), and is not taken twice: the source reads nothing twice.
pub struct Given<'a> {
    pub text: &'a [u8],
    pub atoms: &'a Atoms,
    /// The library's words for the same term.
    pub words: &'a [u32],
    pub taken: HashSet<u32>,
}

impl Given<'_> {
    fn may_be(&mut self, [start, len]: [u32; 2], name: &str, from: Origin) -> bool {
        let before = if from == Origin::Constructor { 3 } else { 0 };
        let atom_from = if from == Origin::Quoted { Origin::Quoted } else { Origin::Symbol };
        let Some(atom_start) = start.checked_sub(before) else { return false };
        let whole = len.checked_add(before).is_some_and(|len| self.atoms.get(&atom_start) == Some(&(len, atom_from)));
        whole && &self.text[start as usize..][..len as usize] == name.as_bytes() && self.taken.insert(atom_start)
    }
}

impl Spans<String> for Given<'_> {
    fn span(&mut self, at: usize, name: &String, from: Origin) -> [u32; 2] {
        match self.words.get(at..at + 2) {
            Some(&[start, len]) if self.may_be([start, len], name, from) => [start, len],
            _ => NONE,
        }
    }
}

/// For counting words.
pub struct Unknown;

impl Spans<String> for Unknown {
    fn span(&mut self, _: usize, _: &String, _: Origin) -> [u32; 2] {
        NONE
    }
}
