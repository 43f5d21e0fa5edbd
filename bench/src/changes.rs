//! The proved map beside the Rust's `Visibility`, which is measured twice, with hash maps as published and with ordered maps: the
//! same batches, applied and undone, and changes to the same radius, in one run, each side the best of many rounds.
use crate::map::ProvedMap;
use crate::measure::{best, floor, row, Row, Tell, RADIUS, SIZE};
use oracle::program::Failure;
use oracle::question::Entry;
use oracle::Random;
use std::hint::black_box;

const POINTS: [usize; 3] = [5, 20, 60];
const SIDES: [i64; 3] = [1, 4, 16];

/// The Rust's map over one kind of maps.
macro_rules! rust {
    ($name:ident, $module:ident) => {
        mod $name {
            use super::*;
            use oracle::$module::occupancy::{Cell, SparseGrid, Visibility};

            pub fn map(entries: &[Entry]) -> Visibility<SparseGrid> {
                let mut map = Visibility::new(SparseGrid::new(SIZE), RADIUS);
                map.change_cells(&cells(entries).collect());
                map
            }

            fn cells(entries: &[Entry]) -> impl Iterator<Item = (Cell, bool)> + '_ {
                entries.iter().map(|&(x, y, full)| (Cell::new(x, y), full))
            }

            pub fn batch(floor: &[Entry], there: &[Entry], back: &[Entry]) -> f64 {
                let mut map = map(floor);
                let (there, back) = (cells(there).collect(), cells(back).collect());
                best(2, || {
                    black_box(map.change_cells(&there));
                    black_box(map.change_cells(&back));
                })
            }

            pub fn radius(floor: &[Entry]) -> f64 {
                let mut map = map(floor);
                best(1, || map.change_agent_radius(black_box(RADIUS)))
            }
        }
    };
}

rust!(ordered, ordered);
rust!(published, published);

/// A block is put down and taken up again.
fn batch(map: &mut ProvedMap, floor: &[Entry], side: i64, on: &str) -> Row {
    let block = |full| -> Vec<Entry> {
        (0..side * side)
            .map(|n| (-30 + n / side, -30 + n % side, full))
            .collect()
    };
    let (there, back) = (block(true), block(false));
    let batches = [ProvedMap::batch(&there), ProvedMap::batch(&back)];
    let proved = best(2, || {
        for batch in &batches {
            assert_eq!(black_box(map.change_cells(batch)), 0);
        }
    });
    let rust = [
        published::batch(floor, &there, &back),
        ordered::batch(floor, &there, &back),
    ];
    row(&format!("batch of {}", side * side), on, proved, &rust)
}

pub fn rows(tell: Tell) -> Result<(), Failure> {
    let mut random = Random::default();
    for points in POINTS {
        let floor = floor(&mut random, points);
        let on = format!("{points} points");
        let mut map = ProvedMap::open(SIZE, RADIUS).expect("an opening");
        assert_eq!(map.change_cells(&ProvedMap::batch(&floor)), 0);
        for side in SIDES {
            tell(batch(&mut map, &floor, side, &on))?;
        }
        let proved = best(1, || assert_eq!(map.change_radius(black_box(RADIUS)), 0));
        let rust = [published::radius(&floor), ordered::radius(&floor)];
        tell(row("radius", &on, proved, &rust))?;
    }
    Ok(())
}
