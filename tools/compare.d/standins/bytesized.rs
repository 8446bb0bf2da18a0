//! Stands in for management/bytesized.rs, the accounting of memory. No size is asked for.
pub trait ByteSized {
    fn size_bytes(&self) -> u64;
}

pub(crate) fn size_inner_vec_flat<T>(_: &Vec<T>) -> u64 {
    unreachable!("no size is asked for")
}

pub(crate) fn size_inner_hashmap_flat<K, V>(_: &hashbrown::HashMap<K, V>) -> u64 {
    unreachable!("no size is asked for")
}
