//! Stands in for the crate hashbrown: a map that asks Hash and Equivalent, as hashbrown's does.
use std::collections::hash_map::DefaultHasher;
use std::hash::{Hash, Hasher};

pub trait Equivalent<K: ?Sized> {
    fn equivalent(&self, key: &K) -> bool;
}

/// Chains of entries, by hash. The number of chains doubles with the entries.
#[derive(Debug)]
pub struct HashMap<K, V> {
    chains: Vec<Vec<(K, V)>>,
    len: usize,
}

fn place<Q: Hash + ?Sized>(key: &Q, chains: usize) -> usize {
    let mut hasher = DefaultHasher::new();
    key.hash(&mut hasher);
    hasher.finish() as usize % chains
}

impl<K: Hash + Eq, V> HashMap<K, V> {
    pub fn new() -> Self {
        HashMap { chains: Vec::new(), len: 0 }
    }

    pub fn is_empty(&self) -> bool {
        self.len == 0
    }

    pub fn get<Q: Hash + Equivalent<K> + ?Sized>(&self, key: &Q) -> Option<&V> {
        if self.chains.is_empty() {
            return None;
        }
        let chain = &self.chains[place(key, self.chains.len())];
        chain.iter().find(|(k, _)| key.equivalent(k)).map(|(_, v)| v)
    }

    pub fn insert(&mut self, key: K, value: V) -> Option<V> {
        if self.len >= self.chains.len() {
            let more = (2 * self.chains.len()).max(4);
            let old = std::mem::replace(&mut self.chains, (0..more).map(|_| Vec::new()).collect());
            for (k, v) in old.into_iter().flatten() {
                self.chains[place(&k, more)].push((k, v));
            }
        }
        let at = place(&key, self.chains.len());
        for (k, v) in self.chains[at].iter_mut() {
            if *k == key {
                return Some(std::mem::replace(v, value));
            }
        }
        self.chains[at].push((key, value));
        self.len += 1;
        None
    }
}
