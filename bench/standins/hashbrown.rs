//! Stands in for the crate hashbrown: std's HashMap, whose table is hashbrown's, asked through Hash and Equivalent.
//! Its hash is std's (SipHash-1-3), or with `--cfg fold` a folded multiply.
use std::borrow::Borrow;
use std::collections::HashMap as Table;
#[cfg(not(fold))]
use std::hash::DefaultHasher as KeyHasher;
use std::hash::{BuildHasherDefault, Hash, Hasher};

#[cfg(fold)]
mod fold;
#[cfg(fold)]
use fold::Folded as KeyHasher;

pub trait Equivalent<K: ?Sized> {
    fn equivalent(&self, key: &K) -> bool;
}

fn hash_of<Q: Hash + ?Sized>(key: &Q) -> u64 {
    let mut hasher = KeyHasher::default();
    key.hash(&mut hasher);
    hasher.finish()
}

/// Hands on a hash that is computed already.
#[derive(Default)]
pub struct Computed(u64);

impl Hasher for Computed {
    fn write(&mut self, _: &[u8]) {
        unreachable!("a hash is one number")
    }
    fn write_u64(&mut self, hash: u64) {
        self.0 = hash;
    }
    fn finish(&self) -> u64 {
        self.0
    }
}

/// What std's map is asked for: a stored key, or a query that may be of another type.
trait Asked<K> {
    fn hashed(&self) -> u64;
    fn is(&self, key: &K) -> bool;
    fn stored(&self) -> &K;
}

impl<K> Hash for dyn Asked<K> + '_ {
    fn hash<H: Hasher>(&self, state: &mut H) {
        state.write_u64(self.hashed())
    }
}

impl<K> PartialEq for dyn Asked<K> + '_ {
    fn eq(&self, other: &Self) -> bool {
        self.is(other.stored())
    }
}

impl<K> Eq for dyn Asked<K> + '_ {}

struct Query<'q, Q: ?Sized>(&'q Q);

impl<K, Q: Hash + Equivalent<K> + ?Sized> Asked<K> for Query<'_, Q> {
    fn hashed(&self) -> u64 {
        hash_of(self.0)
    }
    fn is(&self, key: &K) -> bool {
        self.0.equivalent(key)
    }
    fn stored(&self) -> &K {
        unreachable!("std's map compares the query with a stored key")
    }
}

#[derive(Debug, PartialEq, Eq)]
struct Stored<K>(K);

impl<K: Hash> Hash for Stored<K> {
    fn hash<H: Hasher>(&self, state: &mut H) {
        state.write_u64(hash_of(&self.0))
    }
}

impl<K: Hash + Eq> Asked<K> for Stored<K> {
    fn hashed(&self) -> u64 {
        hash_of(&self.0)
    }
    fn is(&self, key: &K) -> bool {
        self.0 == *key
    }
    fn stored(&self) -> &K {
        &self.0
    }
}

impl<'a, K: Hash + Eq + 'a> Borrow<dyn Asked<K> + 'a> for Stored<K> {
    fn borrow(&self) -> &(dyn Asked<K> + 'a) {
        self
    }
}

#[derive(Debug)]
pub struct HashMap<K, V>(Table<Stored<K>, V, BuildHasherDefault<Computed>>);

impl<K: Hash + Eq, V> HashMap<K, V> {
    pub fn new() -> Self {
        HashMap(Table::default())
    }

    pub fn is_empty(&self) -> bool {
        self.0.is_empty()
    }

    pub fn get<Q: Hash + Equivalent<K> + ?Sized>(&self, key: &Q) -> Option<&V> {
        let query: &dyn Asked<K> = &Query(key);
        self.0.get(query)
    }

    pub fn insert(&mut self, key: K, value: V) -> Option<V> {
        self.0.insert(Stored(key), value)
    }
}
