//! Stand-in for `FxIndexMap` and `FxIndexSet`: entries in the order in which they came, found by a hash of the key.

use std::borrow::Borrow;
use std::hash::{Hash, Hasher};

/// A multiplying hash of eight bytes at a time, as the compiler's maps have it.
#[derive(Default)]
struct Fx(u64);

impl Fx {
    fn add(&mut self, word: u64) {
        self.0 = (self.0.rotate_left(5) ^ word).wrapping_mul(0x51_7C_C1_B7_27_22_0A_95);
    }
}

impl Hasher for Fx {
    fn write(&mut self, bytes: &[u8]) {
        let (eights, rest) = bytes.as_chunks::<8>();
        eights.iter().for_each(|e| self.add(u64::from_le_bytes(*e)));
        rest.iter().for_each(|b| self.add(u64::from(*b)));
    }

    fn write_u8(&mut self, byte: u8) {
        self.add(u64::from(byte));
    }

    fn finish(&self) -> u64 {
        self.0.rotate_left(26)
    }
}

fn hash<Q: Hash + ?Sized>(key: &Q) -> usize {
    let mut fx = Fx::default();
    key.hash(&mut fx);
    fx.finish() as usize
}

/// Slots that hold no entry's place.
const EMPTY: usize = usize::MAX;
const GONE: usize = usize::MAX - 1;

#[derive(Clone, Debug)]
pub struct FxIndexMap<K, V> {
    entries: Vec<(K, V)>,
    /// Places of entries, each in the first free slot from its key's hash on; a power of two, or none.
    slots: Vec<usize>,
    /// How many slots are not empty.
    filled: usize,
}

impl<K, V> Default for FxIndexMap<K, V> {
    fn default() -> Self {
        FxIndexMap { entries: Vec::new(), slots: Vec::new(), filled: 0 }
    }
}

impl<K: Hash + Eq, V> FxIndexMap<K, V> {
    /// The slot and the place of a key.
    fn find<Q: Hash + Eq + ?Sized>(&self, key: &Q) -> Option<(usize, usize)>
    where
        K: Borrow<Q>,
    {
        let mask = self.slots.len().checked_sub(1)?;
        let mut slot = hash(key) & mask;
        loop {
            match self.slots[slot] {
                EMPTY => return None,
                GONE => {}
                place if self.entries[place].0.borrow() == key => return Some((slot, place)),
                _ => {}
            }
            slot = (slot + 1) & mask;
        }
    }

    fn note(&mut self, place: usize) {
        let mask = self.slots.len() - 1;
        let mut slot = hash(&self.entries[place].0) & mask;
        while self.slots[slot] != EMPTY {
            slot = (slot + 1) & mask;
        }
        self.slots[slot] = place;
        self.filled += 1;
    }

    /// Slots anew for the entries and at least so many more, at most half of them filled.
    fn reserve(&mut self, more: usize) {
        let least = (self.entries.len() + more) * 2;
        self.slots = vec![EMPTY; least.next_power_of_two().max(8)];
        self.filled = 0;
        (0..self.entries.len()).for_each(|place| self.note(place));
    }

    /// A key that is there keeps its place and takes the new value.
    pub fn insert(&mut self, key: K, value: V) -> Option<V> {
        if let Some((_, place)) = self.find(&key) {
            return Some(std::mem::replace(&mut self.entries[place].1, value));
        }
        self.entries.push((key, value));
        if (self.filled + 1) * 2 > self.slots.len() {
            self.reserve(self.entries.len());
        } else {
            self.note(self.entries.len() - 1);
        }
        None
    }

    pub fn get<Q: Hash + Eq + ?Sized>(&self, key: &Q) -> Option<&V>
    where
        K: Borrow<Q>,
    {
        self.find(key).map(|(_, place)| &self.entries[place].1)
    }

    /// The last entry takes the place of the one removed.
    pub fn swap_remove<Q: Hash + Eq + ?Sized>(&mut self, key: &Q) -> Option<V>
    where
        K: Borrow<Q>,
    {
        let (slot, place) = self.find(key)?;
        let last = self.entries.last()?.0.borrow();
        let (last_slot, _) = self.find(last)?;
        self.slots[last_slot] = place;
        self.slots[slot] = GONE;
        Some(self.entries.swap_remove(place).1)
    }
}

impl<K: Hash + Eq, V> FromIterator<(K, V)> for FxIndexMap<K, V> {
    fn from_iter<I: IntoIterator<Item = (K, V)>>(all: I) -> Self {
        let (mut map, all) = (Self::default(), all.into_iter());
        map.reserve(all.size_hint().0);
        all.for_each(|(key, value)| {
            map.insert(key, value);
        });
        map
    }
}

/// A map without values. Only what is compiled needs it: nothing that runs here makes a set.
#[derive(Clone, Debug)]
pub struct FxIndexSet<K>(FxIndexMap<K, ()>);

impl<K> Default for FxIndexSet<K> {
    fn default() -> Self {
        FxIndexSet(FxIndexMap::default())
    }
}

impl<K: Hash + Eq> FxIndexSet<K> {
    pub fn insert(&mut self, key: K) -> bool {
        self.0.insert(key, ()).is_none()
    }

    pub fn iter(&self) -> impl Iterator<Item = &K> {
        self.0.entries.iter().map(|(key, ())| key)
    }

    pub fn swap_remove(&mut self, key: &K) -> bool {
        self.0.swap_remove(key).is_some()
    }

    pub fn shift_remove_index(&mut self, place: usize) -> Option<K> {
        let removed = (place < self.0.entries.len()).then(|| self.0.entries.remove(place).0);
        self.0.reserve(0);
        removed
    }
}

impl<K: Hash + Eq> Extend<K> for FxIndexSet<K> {
    fn extend<I: IntoIterator<Item = K>>(&mut self, all: I) {
        all.into_iter().for_each(|key| {
            self.insert(key);
        });
    }
}

impl<K> IntoIterator for FxIndexSet<K> {
    type Item = K;
    type IntoIter = std::iter::Map<std::vec::IntoIter<(K, ())>, fn((K, ())) -> K>;

    fn into_iter(self) -> Self::IntoIter {
        self.0.entries.into_iter().map(|(key, ())| key)
    }
}
