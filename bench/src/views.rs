//! What is seen from a cell, and its neighbours, beside the Rust's `calculate_visibility` and `neighbors`, which are measured twice,
//! with hash maps as published and with ordered maps: the same cells, in one run, each side the best of many rounds. Every answer is
//! compared with the ordered Rust's first.
use crate::map::ProvedMap;
use crate::measure::{best, floor, row, Row, Tell, RADIUS, SIZE};
use oracle::occupancy::Cell;
use oracle::program::Failure;
use oracle::question::Entry;
use oracle::{key, Random};
use std::hint::black_box;

const POINTS: [usize; 3] = [5, 20, 64];
const ASKED: usize = 2_000;

/// The Rust's map over one kind of maps.
macro_rules! rust {
    ($module:ident) => {
        mod $module {
            use super::*;
            use oracle::$module::occupancy::{Cell as Place, SparseGrid, Visibility};

            pub type Map = Visibility<SparseGrid>;

            pub fn map(entries: &[Entry]) -> Map {
                let mut map = Visibility::new(SparseGrid::new(SIZE), RADIUS);
                let cells = entries.iter().map(|&(x, y, full)| (Place::new(x, y), full));
                map.change_cells(&cells.collect());
                map
            }

            pub fn visibility(map: &Map, asked: &[Cell]) -> f64 {
                best(ASKED, || {
                    for c in asked {
                        black_box(map.calculate_visibility(Place::new(c.x, c.y)).count());
                    }
                })
            }

            pub fn neighbors(map: &Map, asked: &[Cell]) -> f64 {
                best(ASKED, || {
                    for c in asked {
                        black_box(map.neighbors(Place::new(c.x, c.y)).count());
                    }
                })
            }
        }
    };
}

rust!(ordered);
rust!(published);

/// The answers are the same, and then how long they take.
fn measure(
    name: &str,
    points: usize,
    floor: &[Entry],
    map: &ProvedMap,
    asked: &[Cell],
) -> [Row; 2] {
    let (tree, hash) = (ordered::map(floor), published::map(floor));
    let mut out = [0; 64];
    for c in asked {
        let seen: Vec<u64> = tree.calculate_visibility(*c).map(|q| key(&q)).collect();
        assert_eq!(seen, map.calculate_visibility(c, &mut out));
        let beside: Vec<u64> = tree.neighbors(*c).map(|q| key(&q)).collect();
        assert_eq!(beside, map.neighbors(c, &mut out));
    }
    let visibility = best(ASKED, || {
        for c in asked {
            black_box(map.calculate_visibility(c, &mut out).len());
        }
    });
    let neighbors = best(ASKED, || {
        for c in asked {
            black_box(map.neighbors(c, &mut out).len());
        }
    });
    let seen = [
        published::visibility(&hash, asked),
        ordered::visibility(&tree, asked),
    ];
    let beside = [
        published::neighbors(&hash, asked),
        ordered::neighbors(&tree, asked),
    ];
    let on = format!("{points} points");
    [
        row(&format!("visibility from {name}"), &on, visibility, &seen),
        row(&format!("neighbours of {name}"), &on, neighbors, &beside),
    ]
}

pub fn rows(tell: Tell) -> Result<(), Failure> {
    let mut random = Random::default();
    for points in POINTS {
        let floor = floor(&mut random, points);
        let mut map = ProvedMap::open(SIZE, RADIUS).expect("an opening");
        assert_eq!(map.change_cells(&ProvedMap::batch(&floor)), 0);
        let all: Vec<Cell> = ordered::map(&floor)
            .debug_points()
            .keys()
            .copied()
            .collect();
        let extent = 6 + points as u64 / 4;
        let of_points: Vec<Cell> = (0..ASKED).map(|_| random.pick(&all)).collect();
        let elsewhere = (0..ASKED)
            .map(|_| [(); 2].map(|_| random.below(extent) as i64 - 2))
            .map(|[x, y]| Cell::new(x, y))
            .collect::<Vec<_>>();
        for (name, asked) in [("points", of_points), ("cells", elsewhere)] {
            for row in measure(name, points, &floor, &map, &asked) {
                tell(row)?;
            }
        }
    }
    Ok(())
}
