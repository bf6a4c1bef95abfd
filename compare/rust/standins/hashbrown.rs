//! Stands in for the crate `hashbrown`: a map by hash and equality whose entries come in the order in which they were first put in,
//! where the Rust's come in the order of hashes. That order is one that the Rust may have, and the same in every run.
use std::borrow::Borrow;
use std::hash::{BuildHasher, BuildHasherDefault, Hash, Hasher};
use std::ops::Index;

/// The entries, and a table of their places, found by hash and by stepping on. Over half of its slots are empty.
#[derive(Debug, Clone)]
pub struct HashMap<K, V> {
    entries: Vec<(K, V)>,
    slots: Vec<Option<usize>>,
}

pub struct Entry<'a, K, V> {
    map: &'a mut HashMap<K, V>,
    key: K,
}

impl<K, V> HashMap<K, V> {
    pub fn new() -> Self {
        Self {
            entries: Vec::new(),
            slots: vec![None; 16],
        }
    }

    pub fn iter(&self) -> impl Iterator<Item = (&K, &V)> {
        self.into_iter()
    }

    pub fn values_mut(&mut self) -> impl Iterator<Item = &mut V> {
        self.entries.iter_mut().map(|(_, value)| value)
    }
}

impl<K: Hash + Eq, V> HashMap<K, V> {
    /// Puts a value in. A key that is there already keeps its first spelling and its place.
    pub fn insert(&mut self, key: K, value: V) -> Option<V> {
        match self.place(&key) {
            Some(at) => Some(std::mem::replace(&mut self.entries[at].1, value)),
            None => {
                self.append(key, value);
                None
            }
        }
    }

    pub fn entry(&mut self, key: K) -> Entry<'_, K, V> {
        Entry { map: self, key }
    }

    pub fn get<Q: Hash + Eq>(&self, key: &Q) -> Option<&V>
    where
        K: Borrow<Q>,
    {
        self.place(key).map(|at| &self.entries[at].1)
    }

    pub fn get_mut<Q: Hash + Eq>(&mut self, key: &Q) -> Option<&mut V>
    where
        K: Borrow<Q>,
    {
        self.place(key).map(|at| &mut self.entries[at].1)
    }

    /// Panics where the two are one entry.
    pub fn get_disjoint_mut<Q: Hash + Eq>(&mut self, keys: [&Q; 2]) -> [Option<&mut V>; 2]
    where
        K: Borrow<Q>,
    {
        match keys.map(|key| self.place(key)) {
            [Some(a), Some(b)] => {
                let both = self.entries.get_disjoint_mut([a, b]);
                let both = both.expect("duplicate keys found");
                both.map(|(_, value)| Some(value))
            }
            [Some(a), None] => [Some(&mut self.entries[a].1), None],
            [None, Some(b)] => [None, Some(&mut self.entries[b].1)],
            [None, None] => [None, None],
        }
    }

    /// The place of a key's entry.
    fn place<Q: Hash + Eq>(&self, key: &Q) -> Option<usize>
    where
        K: Borrow<Q>,
    {
        let is_it = |at: usize| self.entries[at].0.borrow() == key;
        self.slots[self.slot(key, is_it)]
    }

    /// The slot of a key's entry, or the empty one where it would go.
    fn slot(&self, key: &impl Hash, is_it: impl Fn(usize) -> bool) -> usize {
        let last = self.slots.len() - 1;
        let mut slot = hash_of(key) as usize & last;
        while self.slots[slot].is_some_and(|at| !is_it(at)) {
            slot = (slot + 1) & last;
        }
        slot
    }

    /// Puts a new key in and answers its place.
    fn append(&mut self, key: K, value: V) -> usize {
        let at = self.entries.len();
        self.entries.push((key, value));
        if 2 * self.entries.len() > self.slots.len() {
            self.slots = vec![None; 2 * self.slots.len()];
            (0..at).for_each(|at| self.index_entry(at));
        }
        self.index_entry(at);
        at
    }

    fn index_entry(&mut self, at: usize) {
        let slot = self.slot(&self.entries[at].0, |_| false);
        self.slots[slot] = Some(at);
    }
}

impl<'a, K: Hash + Eq, V: Default> Entry<'a, K, V> {
    pub fn or_default(self) -> &'a mut V {
        let Self { map, key } = self;
        let at = match map.place(&key) {
            Some(at) => at,
            None => map.append(key, V::default()),
        };
        &mut map.entries[at].1
    }
}

impl<K: Hash + Eq, V> Index<&K> for HashMap<K, V> {
    type Output = V;

    fn index(&self, key: &K) -> &V {
        self.get(key).expect("no entry found for key")
    }
}

impl<K: Hash + Eq, V> FromIterator<(K, V)> for HashMap<K, V> {
    fn from_iter<I: IntoIterator<Item = (K, V)>>(entries: I) -> Self {
        let mut map = Self::new();
        for (key, value) in entries {
            map.insert(key, value);
        }
        map
    }
}

impl<K, V> IntoIterator for HashMap<K, V> {
    type Item = (K, V);
    type IntoIter = std::vec::IntoIter<(K, V)>;

    fn into_iter(self) -> Self::IntoIter {
        self.entries.into_iter()
    }
}

impl<'a, K, V> IntoIterator for &'a HashMap<K, V> {
    type Item = (&'a K, &'a V);
    type IntoIter = std::iter::Map<std::slice::Iter<'a, (K, V)>, fn(&'a (K, V)) -> (&'a K, &'a V)>;

    fn into_iter(self) -> Self::IntoIter {
        self.entries.iter().map(|(key, value)| (key, value))
    }
}

/// A quick hash: each word is multiplied in, and the product's halves are folded together.
#[derive(Default)]
struct Fold(u64);

impl Hasher for Fold {
    fn write(&mut self, bytes: &[u8]) {
        for chunk in bytes.chunks(8) {
            let mut word = [0; 8];
            word[..chunk.len()].copy_from_slice(chunk);
            self.write_u64(u64::from_le_bytes(word));
        }
    }

    fn write_u64(&mut self, word: u64) {
        let product = u128::from(self.0.rotate_left(23) ^ word) * 0x9e37_79b9_7f4a_7c15;
        self.0 = product as u64 ^ (product >> 64) as u64;
    }

    fn finish(&self) -> u64 {
        self.0
    }
}

fn hash_of(key: &impl Hash) -> u64 {
    BuildHasherDefault::<Fold>::default().hash_one(key)
}
