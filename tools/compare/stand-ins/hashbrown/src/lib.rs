//! Stands in for the crate `hashbrown`, as far as egg's files need it: a map whose keys come in an
//! order that can be chosen, and a set.
//!
//! egg breaks ties among work items by the order in which its hash map hands out keys. That order is
//! not part of egg's text; here it is an argument, so that one order gives document 01's tie rule and
//! others try what else egg may do.

use std::cell::Cell;
use std::collections::hash_map::DefaultHasher;
use std::collections::BTreeMap;
use std::fmt::{self, Debug, Formatter};
use std::hash::{BuildHasherDefault, Hash, Hasher};
use std::marker::PhantomData;
use std::ops::{Deref, DerefMut};

/// The order in which a map hands out its keys.
#[derive(Clone, Copy)]
pub enum Order {
    /// Falling: egg takes the last of several largest, so the smallest key wins a tie.
    Falling,
    /// By a hash of the key and this number.
    Hashed(u64),
}

thread_local! {
    static ORDER: Cell<Order> = const { Cell::new(Order::Falling) };
}

/// From now on maps hand out their keys in this order.
pub fn set_order(order: Order) {
    ORDER.with(|o| o.set(order));
}

/// The key's place in the order `Hashed(salt)`.
fn place<K: Hash>(key: &K, salt: u64) -> u64 {
    let mut hasher = DefaultHasher::new();
    salt.hash(&mut hasher);
    key.hash(&mut hasher);
    hasher.finish()
}

/// A map; everything but the order of its keys is that of a `BTreeMap`. S is the hasher, and hashes nothing.
#[derive(Clone)]
pub struct HashMap<K, V, S = ()>(BTreeMap<K, V>, PhantomData<S>);

impl<K, V, S> HashMap<K, V, S> {
    /// The empty map.
    pub fn with_capacity_and_hasher(_capacity: usize, _hasher: S) -> Self {
        HashMap(BTreeMap::new(), PhantomData)
    }
}

impl<K: Ord + Hash, V, S> HashMap<K, V, S> {
    /// The keys, in the chosen order.
    pub fn keys(&self) -> std::vec::IntoIter<&K> {
        let mut keys: Vec<&K> = self.0.keys().rev().collect();
        if let Order::Hashed(salt) = ORDER.with(Cell::get) {
            keys.sort_by_key(|key| place(key, salt));
        }
        keys.into_iter()
    }
}

impl<K, V, S> Default for HashMap<K, V, S> {
    fn default() -> Self {
        HashMap(BTreeMap::new(), PhantomData)
    }
}

impl<K, V, S> Deref for HashMap<K, V, S> {
    type Target = BTreeMap<K, V>;
    fn deref(&self) -> &Self::Target {
        &self.0
    }
}

impl<K, V, S> DerefMut for HashMap<K, V, S> {
    fn deref_mut(&mut self) -> &mut Self::Target {
        &mut self.0
    }
}

/// The set of the standard library, which hashes alike in every run.
type Inner<T> = std::collections::HashSet<T, BuildHasherDefault<DefaultHasher>>;

/// A set; nothing that egg answers depends on the order of its elements. S is the hasher, and hashes nothing.
#[derive(Clone)]
pub struct HashSet<T, S = ()>(Inner<T>, PhantomData<S>);

impl<T, S> Default for HashSet<T, S> {
    fn default() -> Self {
        HashSet(Inner::default(), PhantomData)
    }
}

impl<T, S> Deref for HashSet<T, S> {
    type Target = Inner<T>;
    fn deref(&self) -> &Self::Target {
        &self.0
    }
}

impl<T, S> DerefMut for HashSet<T, S> {
    fn deref_mut(&mut self) -> &mut Self::Target {
        &mut self.0
    }
}

impl<'a, T, S> IntoIterator for &'a HashSet<T, S> {
    type Item = &'a T;
    type IntoIter = std::collections::hash_set::Iter<'a, T>;
    fn into_iter(self) -> Self::IntoIter {
        self.0.iter()
    }
}

impl<T: Eq + Hash, S> FromIterator<T> for HashSet<T, S> {
    fn from_iter<I: IntoIterator<Item = T>>(iter: I) -> Self {
        HashSet(iter.into_iter().collect(), PhantomData)
    }
}

impl<T: Debug, S> Debug for HashSet<T, S> {
    fn fmt(&self, f: &mut Formatter<'_>) -> fmt::Result {
        self.0.fmt(f)
    }
}
