//! A map whose keys keep the order of their first insertion.
use std::hash::{BuildHasher, Hash};

use crate::index::Index;

#[derive(Clone)]
pub struct IndexMap<K, V, S> {
    entries: Vec<(K, V)>,
    index: Index,
    hasher: S,
}

impl<K, V, S: Default> Default for IndexMap<K, V, S> {
    fn default() -> Self {
        IndexMap {
            entries: Vec::new(),
            index: Index::default(),
            hasher: S::default(),
        }
    }
}

impl<K, V, S> IndexMap<K, V, S> {
    pub fn iter(&self) -> impl Iterator<Item = (&K, &V)> {
        self.entries.iter().map(|(key, value)| (key, value))
    }

    pub fn keys(&self) -> impl Iterator<Item = &K> {
        self.entries.iter().map(|(key, _)| key)
    }
}

impl<K: Eq + Hash, V, S: BuildHasher> IndexMap<K, V, S> {
    /// Gives a key its value. The value that it had, if it had one, is returned, and the key keeps its place.
    pub fn insert(&mut self, key: K, value: V) -> Option<V> {
        let hash = self.hasher.hash_one(&key);
        if let Some(place) = self.index.find(hash, |place| self.entries[place].0 == key) {
            return Some(std::mem::replace(&mut self.entries[place].1, value));
        }
        self.index.push(hash);
        self.entries.push((key, value));
        None
    }
}
