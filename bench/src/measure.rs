//! What the measurements share: floors, the best of many rounds, and a row of the table.
use oracle::ordered::occupancy::{Cell, SparseGrid, Visibility};
use oracle::program::Failure;
use oracle::question::Entry;
use oracle::Random;
use std::collections::BTreeSet;
use std::time::Instant;

pub const SIZE: f64 = 256.0;
pub const RADIUS: f64 = 200.0;
pub const ROUNDS: usize = 20;

/// The best of the rounds, in nanoseconds for one of the `times` calls of a round.
pub fn best(times: usize, round: impl FnMut()) -> f64 {
    best_of(ROUNDS, times, round)
}

pub fn best_of(rounds: usize, times: usize, mut round: impl FnMut()) -> f64 {
    let measured = (0..rounds).map(|_| {
        let start = Instant::now();
        round();
        start.elapsed().as_nanos() as f64 / times as f64
    });
    measured.fold(f64::INFINITY, f64::min)
}

/// How many points a floor has.
fn points_of(entries: &[Entry]) -> usize {
    let mut map = Visibility::new(SparseGrid::new(SIZE), RADIUS);
    let cells = entries.iter().map(|&(x, y, full)| (Cell::new(x, y), full));
    map.change_cells(&cells.collect());
    map.debug_points().len()
}

/// Random cells that have as many points.
pub fn floor(random: &mut Random, points: usize) -> Vec<Entry> {
    loop {
        let extent = 2 + points as u64 / 4;
        let cells: BTreeSet<(i64, i64)> = (0..1 + random.below(points as u64 / 2 + 1))
            .map(|_| (random.below(extent) as i64, random.below(extent) as i64))
            .collect();
        let entries: Vec<Entry> = cells.into_iter().map(|(x, y)| (x, y, true)).collect();
        if points_of(&entries) == points {
            return entries;
        }
    }
}

/// A row of the table in one run: nanoseconds for one call, here and in the Rust: once, or with hash maps and with ordered maps.
pub struct Row {
    pub call: String,
    pub on: String,
    pub proved: f64,
    pub rust: Vec<f64>,
}

/// Gets each row as soon as it is measured.
pub type Tell<'a> = &'a mut dyn FnMut(Row) -> Result<(), Failure>;

pub fn row(call: &str, on: &str, proved: f64, rust: &[f64]) -> Row {
    Row {
        call: call.into(),
        on: on.into(),
        proved,
        rust: rust.into(),
    }
}

impl Row {
    /// The faster Rust over the proved code: above 1 the proved code is faster.
    pub fn ratio(&self) -> f64 {
        self.rust.iter().copied().fold(f64::INFINITY, f64::min) / self.proved
    }
}
