//! What the proved code is compared with, and what the comparisons share.

pub mod judged;
pub mod judged_map;
pub mod layouts;
pub mod listing;
pub mod map_files;
pub mod map_list;
pub mod ordered;
pub mod program;
pub mod published;
pub mod question;
pub mod runs;
pub mod stand_ins;
pub mod vectors;

pub use ordered::occupancy;

use occupancy::Cell;

/// Marsaglia's xorshift with the shifts 13, 7 and 17: the same numbers on every run.
pub struct Random(u64);

impl Default for Random {
    fn default() -> Self {
        Random(88_172_645_463_325_252)
    }
}

impl Random {
    /// Other numbers for every other seed.
    pub fn seeded(seed: u64) -> Self {
        Random(seed.wrapping_mul(0x9e37_79b9_7f4a_7c15) | 1)
    }

    pub fn next(&mut self) -> u64 {
        self.0 ^= self.0 << 13;
        self.0 ^= self.0 >> 7;
        self.0 ^= self.0 << 17;
        self.0
    }

    pub fn below(&mut self, n: u64) -> u64 {
        (self.next() >> 20) % n
    }

    pub fn pick<T: Copy>(&mut self, from: &[T]) -> T {
        from[self.below(from.len() as u64) as usize]
    }

    /// From -1 to 1.
    pub fn unit(&mut self) -> f64 {
        (self.next() >> 11) as f64 / (1u64 << 52) as f64 - 1.0
    }
}

/// A column as the tables hold it: 2^31 more, brought to the range of 32 bits.
pub fn column(n: i64) -> u64 {
    (n.clamp(-(1 << 31), (1 << 31) - 1) + (1 << 31)) as u64
}

/// The number that the tables hold for a cell.
pub fn key(c: &Cell) -> u64 {
    key_of(c.x, c.y)
}

pub fn key_of(x: i64, y: i64) -> u64 {
    (column(x) << 32) + column(y)
}
