//! A set whose elements are numbered in the order of their insertion.
use std::hash::{BuildHasher, Hash};
use std::ops::{self, RangeFull};

use crate::index::Index;

pub type Drain<'a, T> = std::vec::Drain<'a, T>;

#[derive(Clone)]
pub struct IndexSet<T, S> {
    entries: Vec<T>,
    index: Index,
    hasher: S,
}

impl<T, S: Default> Default for IndexSet<T, S> {
    fn default() -> Self {
        IndexSet {
            entries: Vec::new(),
            index: Index::default(),
            hasher: S::default(),
        }
    }
}

impl<T, S> IndexSet<T, S> {
    pub fn len(&self) -> usize {
        self.entries.len()
    }

    pub fn is_empty(&self) -> bool {
        self.entries.is_empty()
    }

    pub fn clear(&mut self) {
        self.entries.clear();
        self.index.clear();
    }

    pub fn drain(&mut self, range: RangeFull) -> Drain<'_, T> {
        self.index.clear();
        self.entries.drain(range)
    }

    pub fn iter(&self) -> std::slice::Iter<'_, T> {
        self.entries.iter()
    }

    pub fn get_index(&self, place: usize) -> Option<&T> {
        self.entries.get(place)
    }
}

impl<T: Eq + Hash, S: BuildHasher> IndexSet<T, S> {
    /// The place of `value`, and whether it is new.
    pub fn insert_full(&mut self, value: T) -> (usize, bool) {
        let hash = self.hasher.hash_one(&value);
        if let Some(place) = self.index.find(hash, |place| self.entries[place] == value) {
            return (place, false);
        }
        self.index.push(hash);
        self.entries.push(value);
        (self.entries.len() - 1, true)
    }

    pub fn get_index_of(&self, value: &T) -> Option<usize> {
        let hash = self.hasher.hash_one(value);
        self.index.find(hash, |place| self.entries[place] == *value)
    }

    /// Removes an element; the last one takes its place.
    pub fn swap_remove_index(&mut self, place: usize) -> Option<T> {
        if place >= self.entries.len() {
            return None;
        }
        let removed = self.entries.swap_remove(place);
        self.index.clear();
        for entry in &self.entries {
            self.index.push(self.hasher.hash_one(entry));
        }
        Some(removed)
    }
}

impl<T, S> ops::Index<usize> for IndexSet<T, S> {
    type Output = T;
    fn index(&self, place: usize) -> &T {
        &self.entries[place]
    }
}
