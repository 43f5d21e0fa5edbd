//! The same text with its hash maps, as published: for benchmarks only, since hash order picks blockers.

pub mod maps {
    pub use std::collections::{hash_map, hash_set, HashMap, HashSet};
}

#[path = "occupancy/mod.rs"]
pub mod occupancy;

#[path = "floor.rs"]
mod floor;
