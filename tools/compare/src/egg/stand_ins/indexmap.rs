//! Stands in for the crate `indexmap`: a map and a set that keep the order of insertion.

use std::marker::PhantomData;
use std::ops::Index;

/// A map in order of first insertion.
pub struct IndexMap<K, V, S>(Vec<(K, V)>, PhantomData<S>);

impl<K, V, S> Default for IndexMap<K, V, S> {
    fn default() -> Self {
        IndexMap(Vec::new(), PhantomData)
    }
}

impl<K: PartialEq, V, S> IndexMap<K, V, S> {
    /// The key's value, or nothing.
    pub fn get(&self, key: &K) -> Option<&V> {
        self.0.iter().find(|(k, _)| k == key).map(|(_, v)| v)
    }

    /// Whether the key has a value.
    pub fn contains_key(&self, key: &K) -> bool {
        self.get(key).is_some()
    }

    /// The key's value before, or nothing; a key that is there keeps its place.
    pub fn insert(&mut self, key: K, value: V) -> Option<V> {
        match self.0.iter_mut().find(|(k, _)| *k == key) {
            Some((_, v)) => Some(std::mem::replace(v, value)),
            None => {
                self.0.push((key, value));
                None
            }
        }
    }
}

impl<K: PartialEq, V, S> Index<&K> for IndexMap<K, V, S> {
    type Output = V;
    fn index(&self, key: &K) -> &V {
        self.get(key).expect("a key of the map")
    }
}

impl<K, V, S> IntoIterator for IndexMap<K, V, S> {
    type Item = (K, V);
    type IntoIter = std::vec::IntoIter<(K, V)>;
    fn into_iter(self) -> Self::IntoIter {
        self.0.into_iter()
    }
}

/// A set in order of first insertion.
pub struct IndexSet<T, S>(Vec<T>, PhantomData<S>);

impl<T, S> Default for IndexSet<T, S> {
    fn default() -> Self {
        IndexSet(Vec::new(), PhantomData)
    }
}

impl<T: PartialEq, S> IndexSet<T, S> {
    /// The element's place, and whether it is new.
    pub fn insert_full(&mut self, value: T) -> (usize, bool) {
        match self.0.iter().position(|v| *v == value) {
            Some(place) => (place, false),
            None => {
                self.0.push(value);
                (self.0.len() - 1, true)
            }
        }
    }
}

impl<T, S> IntoIterator for IndexSet<T, S> {
    type Item = T;
    type IntoIter = std::vec::IntoIter<T>;
    fn into_iter(self) -> Self::IntoIter {
        self.0.into_iter()
    }
}
