//! The proved near test beside the Rust's: one segment against a thousand cells, a thousand segments,
//! the same inputs in one run, each side the best of several rounds. Every answer is compared first.
use crate::measure::{best_of, row, Row, Tell};
use crate::near_cells;
use oracle::occupancy::util::LineSegment;
use oracle::occupancy::{Cell, Point};
use oracle::program::Failure;
use oracle::{key, Random};
use std::hint::black_box;

const SEGMENTS: usize = 1_000;
const CELLS: usize = 1_000;
const ROUNDS: usize = 20;
const SIZE: f64 = 256.0;

struct Floor {
    radius: f64,
    segments: Vec<[f64; 4]>,
    cells: Vec<Cell>,
}

/// Cells and segments between centres, all within so many cells of the origin.
fn floor(extent: u64, radius: f64) -> Floor {
    let mut random = Random::default();
    let mut index = || (random.next() % (2 * extent)) as i64 - extent as i64;
    let cells = (0..CELLS).map(|_| Cell::new(index(), index())).collect();
    let mut centre = || SIZE * (index() as f64 + 0.5);
    let segments = (0..SEGMENTS)
        .map(|_| [centre(), centre(), centre(), centre()])
        .collect();
    Floor {
        radius,
        segments,
        cells,
    }
}

/// One place of call, so that the compiler draws all of the near test into the loop and takes the
/// segment's length out of it.
#[inline(never)]
fn rust(floor: &Floor, segment: &[f64; 4], out: &mut [u8]) {
    let [x0, y0, x1, y1] = *segment;
    let line = LineSegment::new(Point::new(x0, y0), Point::new(x1, y1));
    for (o, cell) in out.iter_mut().zip(&floor.cells) {
        *o = line.passes_near_cell(cell, SIZE, floor.radius) as u8;
    }
}

/// Nanoseconds for one near test.
fn time(floor: &Floor, mut one: impl FnMut(&[f64; 4], &mut [u8])) -> f64 {
    let mut out = vec![0; CELLS];
    best_of(ROUNDS, SEGMENTS * CELLS, || {
        for segment in &floor.segments {
            one(black_box(segment), &mut out);
            black_box(&out);
        }
    })
}

fn measure(name: &str, floor: Floor) -> Row {
    let keys: Vec<u64> = floor.cells.iter().map(key).collect();
    let (mut a, mut b) = (vec![0; CELLS], vec![0; CELLS]);
    for segment in &floor.segments {
        rust(&floor, segment, &mut a);
        near_cells(segment, SIZE, floor.radius, &keys, &mut b);
        assert_eq!(a, b, "segment {segment:?}");
    }
    let proved = time(&floor, |segment, out| {
        near_cells(segment, SIZE, floor.radius, &keys, out);
    });
    let rust = time(&floor, |segment, out| rust(&floor, segment, out));
    row("near test", name, proved, &[rust])
}

pub fn rows(tell: Tell) -> Result<(), Failure> {
    tell(measure("a hall, 200 cells wide", floor(100, 200.0)))?;
    tell(measure("a zone, 40 cells wide", floor(20, 200.0)))?;
    tell(measure("a corner, 8 cells wide", floor(4, 0.0)))?;
    tell(measure("carts 16 cells wide", floor(100, 2048.0)))
}
