//! The proved near test and distance against the Rust's own, on random segments, each against a hundred cells. Prints the count and how many answers differ.
use bench::{near_cells, runcedau_distance, segment};
use oracle::occupancy::util::LineSegment;
use oracle::occupancy::{Cell, Point};
use oracle::program::{number, say, Failure, Program, Progress};
use oracle::{key, Random};
use std::process::ExitCode;

const PROGRAM: Program<1> = Program {
    name: "compare_segment",
    package: "bench",
    does: "Compares the proved near test and distance with the Rust's own,\n\
           on random segments with a hundred cells each.",
    arguments: [("SEGMENTS", "how many segments, at least 1")],
    example: ["1000000"],
};
const CELLS: usize = 100;
const SIZES: [f64; 7] = [1.0 / 1024.0, 0.1, 2.0, 3.7, 256.0, 1000.1, 65_536.0];

/// Any pattern, a value beside zero, or an infinity: rarely.
fn coordinate(random: &mut Random, size: f64, extent: f64) -> f64 {
    let cells = random.unit() * extent;
    match random.below(200) {
        0 => f64::from_bits(random.next()),
        1 => random.unit() * 1e-8,
        2 => random.pick(&[f64::INFINITY, f64::NEG_INFINITY, f64::NAN, 1e300]),
        n if n < 100 => size * (cells.floor() + 0.5),
        n if n < 140 => size * cells.floor(),
        _ => size * cells,
    }
}

fn same(a: f64, b: f64) -> bool {
    a.to_bits() == b.to_bits() || a.is_nan() && b.is_nan()
}

/// A segment, and cells to be near to it or not.
struct Case {
    ends: [f64; 4],
    size: f64,
    radius: f64,
    cells: [Cell; CELLS],
}

fn any_case(random: &mut Random) -> Case {
    let size = random.pick(&SIZES);
    let extent = random.pick(&[2.0, 8.0, 40.0, 1000.0, 1e6]);
    let ends = [(); 4].map(|_| coordinate(random, size, extent));
    let shape = random.unit().abs();
    let radius = size * random.pick(&[0.0, 0.5, 0.78125, shape, 3.0 * shape, 40.0 * shape, -0.5]);
    let cells = [(); CELLS].map(|_| {
        let [x, y] = [(); 2].map(|_| (random.unit() * 1.2 * extent).floor() as i64);
        Cell::new(x, y)
    });
    Case {
        ends,
        size,
        radius,
        cells,
    }
}

/// How many cells are near, and those at which an answer differs.
fn compared(case: &Case) -> (u64, Vec<Cell>) {
    let Case {
        ends,
        size,
        radius,
        cells,
    } = case;
    let [x0, y0, x1, y1] = *ends;
    let line = LineSegment::new(Point::new(x0, y0), Point::new(x1, y1));
    let mut near = [2; CELLS];
    near_cells(ends, *size, *radius, &cells.each_ref().map(key), &mut near);
    let (mut yes, mut differ) = (0, Vec::new());
    for (cell, near) in cells.iter().zip(near) {
        let wanted = line.passes_near_cell(cell, *size, *radius);
        let p = cell.bottom_left_point(*size);
        let distance = runcedau_distance(segment(ends), runcedau::Point::new(p.x, p.y));
        yes += wanted as u64;
        if near != wanted as u8 || !same(distance, line.distance_from_point(p)) {
            differ.push(*cell);
        }
    }
    (yes, differ)
}

fn compare([count]: [String; 1]) -> Result<(), Failure> {
    let count = number("SEGMENTS", &count, 1)?;
    let mut random = Random::default();
    let mut progress = Progress::new("segments", count);
    let (mut different, mut yes) = (0, 0);
    for _ in 0..count {
        let case = any_case(&mut random);
        let (near, differ) = compared(&case);
        yes += near;
        different += differ.len() as u64;
        for cell in differ {
            let ([x0, y0, x1, y1], size, radius) = (case.ends, case.size, case.radius);
            progress.clear();
            say(format!(
                "differs: {x0:e} {y0:e} {x1:e} {y1:e} size {size} radius {radius:e}, {cell:?}"
            ))?;
        }
        progress.step();
    }
    let tests = count as u128 * CELLS as u128;
    let result =
        format!("{tests} near tests, {yes} of them yes, and as many distances: {different} differ");
    progress.end(result, different)
}

fn main() -> ExitCode {
    PROGRAM.run(compare)
}
