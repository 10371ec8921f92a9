//! Stand-in for `HashableHashMap`. It stands in this file since util.rs hands on everything of vector_clock.
//! It differs from the set of util.rs on purpose in one place: `for .. in &map` walks ascending keys, so that a
//! Network timeout sends again in document 01's order. Lookup, insertion and removal are those of `HashMap`.
use super::calculate_hash;
use std::cmp::Ordering;
use std::collections::HashMap;
use std::fmt::{self, Debug, Formatter};
use std::hash::{BuildHasher, Hash, Hasher};
use std::ops::{Deref, DerefMut};

#[derive(Clone)]
pub struct HashableHashMap<K, V, S = ahash::RandomState>(HashMap<K, V, S>);

impl<K, V, S> HashableHashMap<K, V, S> {
    pub fn with_hasher(hasher: S) -> Self {
        HashableHashMap(HashMap::with_hasher(hasher))
    }
}

impl<K, V, S: Default> Default for HashableHashMap<K, V, S> {
    fn default() -> Self {
        Self::with_hasher(S::default())
    }
}

impl<K, V, S> Deref for HashableHashMap<K, V, S> {
    type Target = HashMap<K, V, S>;
    fn deref(&self) -> &Self::Target {
        &self.0
    }
}

impl<K, V, S> DerefMut for HashableHashMap<K, V, S> {
    fn deref_mut(&mut self) -> &mut Self::Target {
        &mut self.0
    }
}

// The walk in ascending order of keys.
impl<'a, K: Ord, V, S> IntoIterator for &'a HashableHashMap<K, V, S> {
    type Item = (&'a K, &'a V);
    type IntoIter = std::vec::IntoIter<(&'a K, &'a V)>;
    fn into_iter(self) -> Self::IntoIter {
        let mut entries: Vec<(&'a K, &'a V)> = self.0.iter().collect();
        entries.sort_by(|x, y| x.0.cmp(y.0));
        entries.into_iter()
    }
}

impl<K: Debug, V: Debug, S> Debug for HashableHashMap<K, V, S> {
    fn fmt(&self, f: &mut Formatter) -> fmt::Result {
        self.0.fmt(f)
    }
}

impl<K: Hash + Eq, V: PartialEq, S: BuildHasher> PartialEq for HashableHashMap<K, V, S> {
    fn eq(&self, other: &Self) -> bool {
        self.0 == other.0
    }
}

impl<K: Hash + Eq, V: Eq, S: BuildHasher> Eq for HashableHashMap<K, V, S> {}

// The rest is asked for by derived traits of the supplied types; a replay neither hashes nor orders maps.
impl<K: Hash, V: Hash, S> HashableHashMap<K, V, S> {
    /// A number that does not hang on the order of the entries.
    fn sum(&self) -> u64 {
        self.0.iter().fold(0, |sum, entry| calculate_hash(&entry).wrapping_add(sum))
    }
}

impl<K: Hash, V: Hash, S> Hash for HashableHashMap<K, V, S> {
    fn hash<H: Hasher>(&self, hasher: &mut H) {
        hasher.write_u64(self.sum());
    }
}

impl<K: Hash + Eq, V: Hash + PartialEq, S: BuildHasher> PartialOrd for HashableHashMap<K, V, S> {
    fn partial_cmp(&self, other: &Self) -> Option<Ordering> {
        Some(self.sum().cmp(&other.sum()))
    }
}

impl<K: Hash + Eq, V: Hash + Eq, S: BuildHasher> Ord for HashableHashMap<K, V, S> {
    fn cmp(&self, other: &Self) -> Ordering {
        self.sum().cmp(&other.sum())
    }
}

impl<K: serde::Serialize + Eq + Hash, V: serde::Serialize, S: BuildHasher> serde::Serialize for HashableHashMap<K, V, S> {
    fn serialize<W: serde::Serializer>(&self, writer: W) -> Result<W::Ok, W::Error> {
        self.0.serialize(writer)
    }
}
