//! The oracle: the Rust with every hash map and hash set replaced by its tree counterpart.

pub mod maps {
    pub use std::collections::{
        btree_map as hash_map, btree_set as hash_set, BTreeMap as HashMap, BTreeSet as HashSet,
    };
}

#[path = "occupancy/mod.rs"]
pub mod occupancy;

#[path = "floor.rs"]
mod floor;
