//! The one name that the source takes from its own crate: a map that keeps the order of insertion.

pub type DictMap<K, V> = indexmap::IndexMap<K, V>;
