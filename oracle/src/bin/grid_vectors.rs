//! Writes the vectors that the program `grid_vectors` replays: `stdin` (floors, batches and questions) and `stdout`
//! (the same with the answers of the Rust's own `SparseGrid`, ordered maps, behind the refusals of RULES 4), into the
//! folder that is its one argument. The list is the same on every run. Standard error tells how many lines there are of
//! each kind, and how they were answered.
//!
//! A line is a letter and six operands, 0 where not used, 104 bytes in all:
//!
//! - `o` size: a new empty floor, and no entry is pending
//! - `e` x y o: one more entry of the pending batch
//! - `b`: the pending batch is applied, and none is pending then
//! - `i` x y: is the cell occupied?
//! - `p` x y, `s` x y width, `c` x y radius, `w` x0 y0 x1 y1 width: the four questions
//!
//! Four decimals answer it, 0 where not used: the refusal; then of a batch how many changes were confirmed, how many
//! statuses changed and how many cells are occupied, of a cell 1 or 0, of a question 1 or 0 and the x and y of the cell
//! that was found. In `stdout` a line for each change follows the batch's: `=` x y o, then `^` x y status.
use oracle::judged::{
    Changes, Judged, LEAST_SIZE, MOST_CELLS, MOST_COORDINATE, MOST_ENTRIES, MOST_QUERY, MOST_SIZE,
};
use oracle::layouts::{block, checkerboard, racks, scattered, Layout};
use oracle::occupancy::{Cell, Point, Vector};
use oracle::program::{is_folder, note, Program};
use oracle::question::{Entry, Question};
use oracle::vectors::{
    generator, pattern, place, place_numbers, question_line, stepped, tell, Vectors, INFINITY,
};
use oracle::Random;
use std::collections::BTreeMap;
use std::process::ExitCode;
use Question::{Circle, Square, Sweep};

/// Added to a border it loses nothing of it, as long as the exponent stays.
fn power_below(x: f64) -> f64 {
    f64::from_bits(x.to_bits() & INFINITY)
}

/// Values in their order as whole numbers, one step after the other.
fn rank(x: f64) -> i64 {
    let bits = x.to_bits() as i64;
    bits ^ ((bits >> 63) & i64::MAX)
}

fn of_rank(n: i64) -> f64 {
    f64::from_bits((n ^ ((n >> 63) & i64::MAX)) as u64)
}

/// Columns and rows, from a cell's low corner.
type Offset = (f64, f64);

fn added(cells: impl IntoIterator<Item = Cell>) -> Vec<Entry> {
    cells.into_iter().map(|c| (c.x, c.y, true)).collect()
}

fn freed(cells: impl IntoIterator<Item = Cell>) -> Vec<Entry> {
    cells.into_iter().map(|c| (c.x, c.y, false)).collect()
}

/// How often something was found (a batch: confirmed), how often nothing was, and how often the call was refused.
type Tally = [usize; 3];

struct List {
    random: Random,
    vectors: Vectors,
    floor: Judged,
    pending: Vec<Entry>,
    /// Random lengths and places are whole numbers.
    whole: bool,
    kinds: BTreeMap<String, Tally>,
    counts: BTreeMap<String, usize>,
}

/// The lines.
impl List {
    fn new() -> Self {
        List {
            random: Random::default(),
            vectors: Vectors::default(),
            floor: Judged::new(256.0),
            pending: Vec::new(),
            whole: false,
            kinds: BTreeMap::new(),
            counts: BTreeMap::new(),
        }
    }

    fn count(&mut self, name: impl Into<String>, more: usize) {
        *self.counts.entry(name.into()).or_default() += more;
    }

    fn line(&mut self, letter: char, operands: &[u64], answer: [i64; 4]) {
        let mut six = [0; 6];
        six[..operands.len()].copy_from_slice(operands);
        self.vectors.push_counted(letter, &six, &answer);
        self.count(format!("lines {letter}"), 1);
        if answer[0] > 0 {
            self.count(format!("refusals {letter} with {}", answer[0]), 1);
        }
    }

    fn tally(&mut self, letter: char, kind: &str, way: usize) {
        for name in [format!("{letter} {kind}"), format!("{letter} in all")] {
            self.kinds.entry(name).or_default()[way] += 1;
        }
    }

    fn open(&mut self, size: f64) {
        self.floor = Judged::new(size);
        self.pending.clear();
        self.whole = false;
        self.line('o', &[pattern(size)], [0; 4]);
    }

    fn entry(&mut self, entry: Entry) {
        let (x, y, occupied) = entry;
        self.pending.push(entry);
        self.line('e', &[x as u64, y as u64, occupied as u64], [0; 4]);
    }

    fn apply(&mut self, kind: &str) {
        let batch = std::mem::take(&mut self.pending);
        match self.floor.change(&batch) {
            Err(refusal) => {
                self.line('b', &[], [refusal as i64, 0, 0, 0]);
                self.tally('b', kind, 2);
            }
            Ok(changes) => {
                self.list(&changes);
                self.tally('b', kind, changes.confirmed.is_empty() as usize);
            }
        }
    }

    fn list(&mut self, changes: &Changes) {
        let (confirmed, corners) = (changes.confirmed.len(), changes.corners.len());
        let answer = [0, confirmed as i64, corners as i64, changes.cells as i64];
        self.line('b', &[], answer);
        self.vectors.answer_changes(changes);
        self.count("changes confirmed", confirmed);
        self.count("changes of corners", corners);
    }

    fn batch(&mut self, kind: &str, entries: &[Entry]) {
        for entry in entries {
            self.entry(*entry);
        }
        self.apply(kind);
    }

    fn is_occupied(&mut self, kind: &str, cell: Cell) {
        let occupied = self.floor.is_occupied(&cell);
        let answer = [0, occupied as i64, 0, 0];
        self.line('i', &[cell.x as u64, cell.y as u64], answer);
        self.tally('i', kind, !occupied as usize);
    }

    fn ask(&mut self, kind: &str, question: Question) {
        let (letter, operands) = question_line(&question);
        let found = self.floor.ask(&question);
        let way = found.map_or(2, |cell| cell.is_none() as usize);
        self.line(letter, &operands, place_numbers(found));
        self.tally(letter, kind, way);
    }

    /// Where one step alters the answer, between two numbers whose answers differ: on either side of that step. Where
    /// they do not differ, at the first.
    fn ask_between(&mut self, kind: &str, [a, b]: [f64; 2], question: impl Fn(f64) -> Question) {
        let answer = |n| self.floor.ask(&question(of_rank(n)));
        let (mut before, mut behind) = (rank(a), rank(b));
        let first = answer(before);
        let altered = first != answer(behind);
        while altered && before.abs_diff(behind) > 1 {
            let middle = ((before as i128 + behind as i128) >> 1) as i64;
            if answer(middle) == first {
                before = middle;
            } else {
                behind = middle;
            }
        }
        self.ask(kind, question(of_rank(before)));
        if altered {
            self.ask(kind, question(of_rank(behind)));
        }
    }
}

/// Places and lengths, most of them in cells.
impl List {
    fn units(&self, cells: f64) -> f64 {
        let length = self.floor.size() * cells;
        if self.whole {
            length.round()
        } else {
            length
        }
    }

    /// From -reach to reach, half of them multiples of a quarter.
    fn quarters(&mut self, reach: f64) -> f64 {
        let u = reach * self.random.unit();
        self.random.pick(&[u, (u * 4.0).round() / 4.0])
    }

    fn length(&mut self, most: f64) -> f64 {
        let cells = self.quarters(most).abs();
        self.units(cells)
    }

    /// On an empty floor the one at the origin.
    fn occupied_cell(&mut self) -> Cell {
        let cells = self.floor.cells();
        if cells.is_empty() {
            return Cell::new(0, 0);
        }
        self.random.pick(&cells)
    }

    /// An occupied cell or, as often, one beside it.
    fn aim(&mut self) -> Cell {
        let cell = self.occupied_cell();
        let [i, j] = [(); 2].map(|_| self.random.pick(&[-1, 0, 1]));
        self.random.pick(&[cell, cell.shifted(i, j)])
    }

    /// The occupied cell that is farthest in a direction.
    fn outermost(&mut self, direction: Vector) -> Cell {
        let first = self.occupied_cell();
        let along = |c: &Cell| Vector::new(c.x as f64, c.y as f64).dot(&direction);
        let cells = self.floor.cells().into_iter();
        cells.fold(first, |a, b| if along(&b) > along(&a) { b } else { a })
    }

    fn at(&self, cell: Cell, (u, v): Offset) -> Point {
        place(cell, self.floor.size(), u, v)
    }

    /// Within so many cells of a cell's centre.
    fn near(&mut self, cell: Cell, reach: f64) -> Point {
        let [u, v] = [(); 2].map(|_| 0.5 + self.quarters(reach));
        Point::new(self.units(cell.x as f64 + u), self.units(cell.y as f64 + v))
    }

    /// As it is as often as not, else one value up or down.
    fn one_step(&mut self, x: f64) -> f64 {
        let n = self.random.pick(&[-1, 0, 0, 1]);
        stepped(x, n)
    }

    fn inside(&mut self) -> f64 {
        let u = 0.5 + 0.5 * self.random.unit();
        self.random.pick(&[u, 0.25, 0.5, 0.75])
    }

    /// On one of the cell's sides or corners, or a step beside.
    fn on_border(&mut self, cell: Cell) -> Point {
        let (u, v) = (self.inside(), self.inside());
        let (m, n) = (self.random.pick(&[0.0, 1.0]), self.random.pick(&[0.0, 1.0]));
        let offset = self.random.pick(&[(m, v), (u, n), (m, n)]);
        let p = self.at(cell, offset);
        Point::new(self.one_step(p.x), self.one_step(p.y))
    }

    /// So far out of one of the cell's corners.
    fn by_corner(&mut self, u: f64, v: f64) -> Offset {
        self.random
            .pick(&[(-u, -v), (1.0 + u, -v), (-u, 1.0 + v), (1.0 + u, 1.0 + v)])
    }

    fn corner(&mut self) -> Offset {
        self.by_corner(0.0, 0.0)
    }

    /// Magnitudes up to the greatest that a query may have.
    fn far(&mut self) -> f64 {
        let x = self.random.unit() * MOST_QUERY;
        self.random.pick(&[
            -MOST_QUERY,
            -MOST_QUERY / 2.0,
            0.0,
            MOST_QUERY / 2.0,
            MOST_QUERY,
            x,
        ])
    }

    fn direction(&mut self) -> Vector {
        let [u, v] = [(); 2].map(|_| self.random.unit());
        let (u, v) = self.random.pick(&[
            (u, v),
            (u, v),
            (1.0, 0.0),
            (0.0, -1.0),
            (-0.6, 0.8),
            (0.8, 0.6),
        ]);
        Vector::new(u, v)
    }
}

/// Their length is 5, and products with it come out exactly.
const SLANTED: [Offset; 8] = [
    (3.0, 4.0),
    (4.0, 3.0),
    (-3.0, 4.0),
    (-4.0, 3.0),
    (3.0, -4.0),
    (4.0, -3.0),
    (-3.0, -4.0),
    (-4.0, -3.0),
];
const DIAGONAL: [Offset; 4] = [(1.0, 1.0), (1.0, -1.0), (-1.0, 1.0), (-1.0, -1.0)];
const EIGHTHS: [f64; 5] = [0.125, 0.25, 0.375, 0.5, 1.0];
const NO_WIDTH: [f64; 2] = [0.0, -0.0];
const NARROW: [f64; 6] = [0.0, -0.0, 1e-310, 1e-9, 0.05, 0.5];
const AROUND: [f64; 9] = [-6.0, -2.0, -1.0, 0.0, 0.25, 0.5, 1.0, 2.0, 5.0];

/// Points and squares.
impl List {
    fn points(&mut self) {
        let cell = self.aim();
        let p = self.near(cell, 0.75);
        self.ask("random", Question::Point(p));
        for _ in 0..3 {
            let cell = self.aim();
            let p = self.on_border(cell);
            self.ask("on a border or one step beside", Question::Point(p));
        }
    }

    /// A row that is 2^32 too high or low would be the cell's in the next column, if nothing stopped it.
    fn point_elsewhere(&mut self) {
        let cell = self.occupied_cell();
        let (x, y) = self.random.pick(&[(-1, 1i64), (1, -1), (0, 1), (1, 0)]);
        let wrapped = self.at(cell.shifted(x, y << 32), (0.5, 0.5));
        let [x, y] = [(); 2].map(|_| self.far());
        let tiny = [(); 2].map(|_| self.random.pick(&[0.0, -0.0, 5e-324, -5e-324, -1e-310]));
        let p = self.random.pick(&[
            Point::new(x, y),
            Point::new(tiny[0], tiny[1]),
            wrapped,
            wrapped,
        ]);
        if p.y.abs() <= MOST_QUERY {
            self.ask("far off, or hardly beside the origin", Question::Point(p));
        }
    }

    fn squares(&mut self) {
        for _ in 0..2 {
            self.square_of_whole_cells();
        }
        let cell = self.aim();
        let (p, q) = (self.on_border(cell), self.near(cell, 0.5));
        let (p, width) = (self.random.pick(&[p, p, q]), self.random.pick(&NO_WIDTH));
        self.ask("of no width", Square(p, width));
        self.wide_square();
    }

    /// Its sides on borders or one step beside, an occupied cell just inside or just outside.
    fn square_of_whole_cells(&mut self) {
        let (cell, n) = (self.occupied_cell(), self.random.pick(&[1, 2, 3, 4]));
        let (i, j) = (
            self.random.pick(&[-1, 0, n - 1, n]),
            self.random.pick(&[-1, 0, 0, n - 1, n - 1, n]),
        );
        let half = n as f64 / 2.0;
        let p = self.at(cell.shifted(-i, -j), (half, half));
        let p = Point::new(self.one_step(p.x), p.y);
        let width = self.one_step(self.floor.size() * n as f64);
        self.ask("of whole cells or one step beside", Square(p, width));
    }

    fn wide_square(&mut self) {
        let [x, y] = [(); 2].map(|_| self.far());
        let cell = self.aim();
        let (p, width) = (self.near(cell, 60.0), self.length(120.0));
        let (p, width) = self
            .random
            .pick(&[(p, width), (Point::new(x, y), MOST_QUERY)]);
        self.ask("wide", Square(p, width));
    }
}

/// Circles.
impl List {
    fn circles(&mut self) {
        self.circle_by_a_side();
        self.circle_inside();
        self.circle_by_a_corner();
        self.circle_to_a_corner();
        self.circle_of_a_few_steps();
        let reach = 2f64.powi(12 + self.random.below(28) as i32);
        self.circle_from_afar("from afar", reach);
        let cell = self.aim();
        let (p, q) = (self.on_border(cell), self.near(cell, 0.5));
        let (p, radius) = (self.random.pick(&[p, q, q]), self.random.pick(&NO_WIDTH));
        self.ask("of no radius", Circle(p, radius));
    }

    /// At the middle of the side, elsewhere on it or level with one of its ends; exactly, or with the radius at which
    /// the answer changes.
    fn circle_by_a_side(&mut self) {
        let (cell, inside) = (self.occupied_cell(), self.inside());
        let along = self.random.pick(&[inside, 0.5, 0.0, 1.0]);
        let part = self.floor.size() * self.random.pick(&EIGHTHS);
        let radius = self.random.pick(&[part, power_below(part)]);
        let [low, at, high] = [0.0, along, 1.0].map(|u| self.at(cell, (u, u)));
        let p = self.random.pick(&[
            Point::new(low.x - radius, at.y),
            Point::new(high.x + radius, at.y),
            Point::new(at.x, low.y - radius),
            Point::new(at.x, high.y + radius),
        ]);
        let bounds = self
            .random
            .pick(&[[radius; 2], [0.5 * radius, 1.5 * radius]]);
        self.ask_between("touches a side", bounds, |radius| Circle(p, radius));
    }

    fn circle_inside(&mut self) {
        let cell = self.occupied_cell();
        let [u, v] = [(); 2].map(|_| 0.2 * self.random.unit().abs());
        let r = self.random.pick(&[0.3, 0.6, 0.9, 1.1]) * u.min(v);
        let offset = self.by_corner(-u, -v);
        let p = self.at(cell, offset);
        let radius = self.floor.size() * r;
        self.ask("inside a cell near its corner", Circle(p, radius));
    }

    /// Its edge on the corner, exactly where the size is a power of two, or one step beside.
    fn circle_by_a_corner(&mut self) {
        let cell = self.occupied_cell();
        let (far, (u, v)) = (self.random.pick(&EIGHTHS), self.random.pick(&SLANTED));
        let offset = self.by_corner(far * u.abs(), far * v.abs());
        let p = self.at(cell, offset);
        let radius = self.one_step(self.floor.size() * far * 5.0);
        self.ask("passes a corner", Circle(p, radius));
    }

    fn circle_to_a_corner(&mut self) {
        let (along, diagonal) = (self.direction(), self.random.pick(&DIAGONAL));
        let along = self
            .random
            .pick(&[along, Vector::new(diagonal.0, diagonal.1)]);
        let (cell, (u, v)) = (self.outermost(along), (along.x, along.y));
        let corner = self.at(cell, (0.5 + 0.5f64.copysign(u), 0.5 + 0.5f64.copysign(v)));
        let p = corner + along * (self.floor.size() * self.random.pick(&[0.1, 1.0, 3.0]));
        let distance = (corner - p).norm();
        self.ask_between(
            "a corner at the radius",
            [0.5 * distance, 1.5 * distance],
            |radius| Circle(p, radius),
        );
    }

    /// Off a corner or a side by a few steps at most, its radius as short.
    fn circle_of_a_few_steps(&mut self) {
        let (cell, (m, n), inside) = (self.occupied_cell(), self.corner(), self.random.unit());
        let along = 0.5 + 0.5 * inside;
        let offset = self.random.pick(&[(m, n), (m, along), (along, n)]);
        let at = self.at(cell, offset);
        let greater = at.x.abs().max(at.y.abs());
        let step = greater.next_up() - greater;
        let radius = step * self.random.pick(&[0.5, 1.0, 1.5, 2.0, 3.0]);
        let [i, j] = [(); 2].map(|_| self.random.below(7) as i64 - 3);
        let p = Point::new(stepped(at.x, i), stepped(at.y, j));
        self.ask("a few steps long, by a border", Circle(p, radius));
    }

    /// Its edge passes through the outermost cell or near it.
    fn circle_from_afar(&mut self, kind: &str, reach: f64) {
        let along = self.direction();
        let cell = self.outermost(along);
        let edge = self.near(cell, 1.2);
        let p = edge + along * reach;
        let radius = self.one_step((edge - p).norm());
        if p.x.abs().max(p.y.abs()).max(radius) <= MOST_QUERY {
            self.ask(kind, Circle(p, radius));
        }
    }

    fn farthest_circle(&mut self) {
        let [x, y] = [(); 2].map(|_| self.far());
        let radius = self.random.pick(&[MOST_QUERY, MOST_QUERY / 2.0]);
        self.ask("far off", Circle(Point::new(x, y), radius));
    }
}

/// Sweeps.
impl List {
    fn sweeps(&mut self) {
        self.sweep_along_an_axis();
        self.sweep_along_a_diagonal();
        self.sweep_through_a_corner();
        self.strip_with_its_corner_on_a_corner();
        match self.random.below(2) {
            0 => self.line_that_ends_at_a_corner(),
            _ => self.strip_that_ends_at_a_corner(),
        }
        self.short_sweep();
        self.nearly_upright_sweep();
        self.long_sweep();
    }

    fn sweep_at(&mut self, kind: &str, cell: Cell, ends: [Offset; 2], width: f64) {
        let [p, q] = ends.map(|offset| self.at(cell, offset));
        let (p, q) = self.random.pick(&[(p, q), (q, p)]);
        self.ask(kind, Sweep(p, q, self.floor.size() * width));
    }

    /// Its middle or one of its sides on a border or one step beside.
    fn sweep_along_an_axis(&mut self) {
        let (cell, width) = (self.occupied_cell(), self.random.pick(&NARROW));
        let width = self.random.pick(&[width, 1.0, 2.0]);
        let side = self.random.pick(&[0.0, 1.0]) + self.random.pick(&[-0.5, 0.0, 0.5]) * width;
        let [s, t] = [(); 2].map(|_| self.random.pick(&AROUND));
        let (p, q) = (self.at(cell, (side, s)), self.at(cell, (side, t)));
        let upright = self.one_step(p.x);
        let (v, w) = (self.at(cell, (s, side)), self.at(cell, (t, side)));
        let level = self.one_step(v.y);
        let (p, q) = self.random.pick(&[
            (Point::new(upright, p.y), Point::new(upright, q.y)),
            (Point::new(v.x, level), Point::new(w.x, level)),
        ]);
        let width = self.floor.size() * width;
        self.ask("along an axis", Sweep(p, q, width));
    }

    fn sweep_along_a_diagonal(&mut self) {
        let (cell, width) = (self.aim(), self.random.pick(&NARROW));
        let [s, t] = [(); 2].map(|_| self.random.pick(&AROUND));
        let ends = self
            .random
            .pick(&[[(s, s), (t, t)], [(s, 1.0 - s), (t, 1.0 - t)]]);
        self.sweep_at("along a diagonal", cell, ends, width);
    }

    fn sweep_through_a_corner(&mut self) {
        let (cell, (m, n)) = (self.occupied_cell(), self.corner());
        let (u, v) = (self.quarters(3.0), self.quarters(3.0));
        let [s, t] = [(); 2].map(|_| self.random.pick(&[0.0, 0.5, 1.0, 2.0]));
        let ends = [(m - s * u, n - s * v), (m + t * u, n + t * v)];
        let width = self.random.pick(&NO_WIDTH);
        self.sweep_at("through a corner", cell, ends, width);
    }

    /// Exactly so where the size is a power of two.
    fn strip_with_its_corner_on_a_corner(&mut self) {
        let (cell, (m, n)) = (self.occupied_cell(), self.corner());
        let (u, v) = self.random.pick(&SLANTED);
        let [aside, along] = [(); 2].map(|_| self.random.pick(&EIGHTHS));
        let p = (m - v * aside, n + u * aside);
        let q = (p.0 + u * along, p.1 + v * along);
        let kind = "the strip's corner on a cell's corner";
        self.sweep_at(kind, cell, [p, q], 10.0 * aside);
    }

    /// It comes through the cell's column from above or below and ends on the column's border; one step decides whether
    /// it reaches the cell. The longer it is, the more digits are lost on the way.
    fn line_that_ends_at_a_corner(&mut self) {
        let (cell, (m, n)) = (self.occupied_cell(), self.corner());
        let end = self.at(cell, (m, n));
        let times = self.random.pick(&[1.0, 16.0, 256.0]) * self.floor.size();
        let [u, v] = [(); 2].map(|_| self.quarters(3.0).abs() + 0.25);
        let start = end + Vector::new((1.0 - 2.0 * m) * u, (2.0 * n - 1.0) * v) * times;
        let half = 0.5 * self.floor.size();
        self.ask_between("ends at a corner", [end.y - half, end.y + half], |y| {
            Sweep(start, Point::new(end.x, y), 0.0)
        });
    }

    /// Likewise; the last of the strip's four corners is its lowest, or its highest, and is on the column's border.
    fn strip_that_ends_at_a_corner(&mut self) {
        let (cell, (m, n)) = (self.occupied_cell(), self.corner());
        let times = self.random.pick(&[1.0, 16.0, 256.0]) * self.floor.size();
        let (u, v) = self.random.pick(&[(3.0, -4.0), (4.0, -3.0)]);
        let [along, aside] = [(); 2].map(|_| (2.0 * n - 1.0) * times * self.random.pick(&EIGHTHS));
        let last = self.at(cell, (m, n)) + Vector::new(-v, u) * aside;
        let first = last - Vector::new(u, v) * along;
        let (half, width) = (0.5 * self.floor.size(), 10.0 * aside.abs());
        let kind = "the strip's last corner at a corner";
        self.ask_between(kind, [last.y - half, last.y + half], |y| {
            Sweep(first, Point::new(last.x, y), width)
        });
    }

    /// Which side of 1e-8 its length is on tells whether the width counts.
    fn short_sweep(&mut self) {
        let cell = self.aim();
        let p = self.near(cell, 0.5);
        let length = self.random.pick(&[0.0, 3e-9, 9.9e-9, 1.01e-8, 3e-8, 1e-6]);
        let q = p + self.direction() * length;
        let width = self.floor.size() * self.random.pick(&[-0.0, 1.0, 2.5, 40.0]);
        self.ask("about as short as 1e-8", Sweep(p, q, width));
    }

    /// Across the border of the cell's column, at the cell's row on the outer side: a side that is less than 1e-8
    /// wide counts with both its ends.
    fn nearly_upright_sweep(&mut self) {
        let (cell, rows) = (self.occupied_cell(), self.random.pick(&[-4.0, 4.0]));
        let wide = self.random.pick(&[3e-9, 9.9e-9, 1.01e-8, 3e-8]);
        let (column, wide) = self.random.pick(&[(0.0, -wide), (1.0, wide)]);
        let [p, q] = [(column, 0.5), (column, 0.5 + rows)].map(|offset| self.at(cell, offset));
        let (p, q) = (
            Point::new(p.x + wide / 2.0, p.y),
            Point::new(q.x - wide / 2.0, q.y),
        );
        let (p, q) = self.random.pick(&[(p, q), (q, p)]);
        let width = self.random.pick(&[0.0, -0.0, 1e-310, 1e-12]);
        self.ask("nearly upright across a border", Sweep(p, q, width));
    }

    fn long_sweep(&mut self) {
        let reach = self.floor.size() * 2f64.powi(2 + self.random.below(8) as i32);
        let afar = 2f64.powi(12 + self.random.below(27) as i32);
        let reaches = [(); 2].map(|_| self.random.pick(&[reach, reach, reach, afar]));
        self.sweep_past("long", reaches);
    }

    /// Past all the cells but one, which a side of the strip passes through or near.
    fn sweep_past(&mut self, kind: &str, [before, behind]: [f64; 2]) {
        let along = self.direction();
        let across = Vector::new(-along.y, along.x);
        let cell = self.outermost(across);
        let (side, width) = (self.near(cell, 1.3), self.length(3.0));
        let middle = side + across * (0.5 * width / across.norm());
        let (p, q) = (middle - along * before, middle + along * behind);
        if [p.x, p.y, q.x, q.y].iter().all(|x| x.abs() <= MOST_QUERY) {
            self.ask(kind, Sweep(p, q, width));
        }
    }

    fn farthest_sweep(&mut self) {
        let [x, y, z, w] = [(); 4].map(|_| self.far());
        let (z, w) = self.random.pick(&[(z, w), (-x, -y), (-x, y)]);
        let narrow = self.length(2.0);
        let width = self.random.pick(&[MOST_QUERY, MOST_QUERY / 2.0, narrow]);
        let (p, q) = (Point::new(x, y), Point::new(z, w));
        self.ask("far off", Sweep(p, q, width));
    }
}

const SIZES: [f64; 9] = [
    1.0 / 1024.0,
    0.1,
    1.0,
    2.0,
    3.7,
    256.0,
    1000.1,
    1024.0,
    65_536.0,
];
const LAYOUTS: usize = 9;
const TURNS: usize = 12;

/// Floors.
impl List {
    fn round(&mut self) {
        self.points();
        self.squares();
        self.circles();
        self.sweeps();
    }

    /// The sizes of the list, then two floors of the yard class, then any size.
    fn open_in_turn(&mut self, turn: usize) {
        let power = self.random.below(10) as i32 + 1;
        let exponent = self.random.below(26) as i32 - 10;
        let between = 2f64.powi(exponent) * (1.0 + self.random.unit().abs());
        match turn {
            9 | 10 => {
                self.open(2f64.powi(power));
                self.whole = true;
            }
            11 => self.open(between),
            _ => self.open(SIZES[turn]),
        }
    }

    fn layout(&mut self, i: usize) -> (&'static str, Layout) {
        match i {
            0 => ("two cells", scattered(&mut self.random, 2, 3)),
            1 => ("a few cells", scattered(&mut self.random, 4, 5)),
            2 => ("sparse", scattered(&mut self.random, 10, 40)),
            3 => ("sparse", scattered(&mut self.random, 10, 300)),
            4 => ("block", block(4, 4)),
            5 => ("racks", racks(18, 3)),
            6 => ("racks", racks(20, 5)),
            7 => ("checkerboard", checkerboard(5, 5)),
            _ => ("crowd", scattered(&mut self.random, 14, 5)),
        }
    }

    /// At the origin, across it, aside of it, or where batches end.
    fn moved(&mut self, layout: Layout) -> Vec<Cell> {
        let last = layout.iter().map(|c| c.x.max(c.y)).max().unwrap_or(0);
        let [x, y] = [(); 2].map(|_| {
            self.random.pick(&[
                0,
                0,
                -1,
                -2,
                -3,
                -60,
                17,
                -MOST_COORDINATE,
                MOST_COORDINATE - last,
            ])
        });
        layout.iter().map(|cell| cell.shifted(x, y)).collect()
    }

    /// So many entries about the occupied cells: some add, some remove, some alter nothing.
    fn entries(&mut self, count: usize) -> Vec<Entry> {
        let mut batch = BTreeMap::new();
        while batch.len() < count {
            let (cell, reach) = (self.occupied_cell(), self.random.pick(&[0, 1, 1, 8]));
            let [x, y] = [cell.x, cell.y].map(|at| {
                let there = at + self.random.below(2 * reach + 1) as i64 - reach as i64;
                there.clamp(-MOST_COORDINATE, MOST_COORDINATE)
            });
            batch.insert((x, y), self.random.below(2) == 0);
        }
        batch.into_iter().map(|((x, y), o)| (x, y, o)).collect()
    }

    fn random_batch(&mut self, count: usize) {
        let entries = self.entries(count);
        self.batch(&format!("random, {count} entries"), &entries);
        let cell = self.aim();
        self.is_occupied("random", cell);
    }

    /// Near a cell, at a step that alters the answer: of a place, of a width or radius, of the far end.
    fn random_questions(&mut self) {
        let (cell, kind) = (self.aim(), "random, at a step that alters the answer");
        let [p, q, r] = [1.5, 1.5, 5.0].map(|reach| self.near(cell, reach));
        let (width, long) = (self.length(1.5), self.units(6.0));
        self.ask_between(kind, [p.x, q.x], |x| Question::Point(Point::new(x, p.y)));
        self.ask_between(kind, [0.0, long], |width| Square(p, width));
        self.ask_between(kind, [0.0, long], |radius| Circle(q, radius));
        match self.random.below(3) {
            0 => self.ask_between(kind, [0.0, long], |width| Sweep(p, r, width)),
            1 => self.ask_between(kind, [r.x, r.x + long], |x| {
                Sweep(p, Point::new(x, r.y), width)
            }),
            _ => self.ask_between(kind, [p.y, p.y + long], |y| {
                Sweep(Point::new(p.x, y), r, width)
            }),
        }
    }

    fn ordinary_floors(&mut self) {
        for (i, turn) in (0..LAYOUTS).flat_map(|i| (0..TURNS).map(move |turn| (i, turn))) {
            self.open_in_turn(turn);
            let (kind, layout) = self.layout(i);
            let cells = self.moved(layout);
            self.batch(kind, &added(cells));
            self.round();
            let count = [1, 2, 5, 5, 2, 1, 0, 2, 5, 1, 40, 2][(turn + i) % 12];
            self.random_batch(count);
            self.random_questions();
            if turn % 2 == 0 {
                self.point_elsewhere();
                self.farthest_sweep();
            }
        }
    }

    /// Nothing is found on an empty floor, not even after all of it was freed.
    fn empty_floors(&mut self) {
        for size in [256.0, 0.1] {
            self.open(size);
            self.batch("empty", &[]);
            self.random_questions();
            let cells = block(2, 2);
            self.batch("block", &added(cells.clone()));
            self.batch("all of it freed", &freed(cells.clone()));
            self.batch("freed again", &freed(cells));
            self.round();
        }
    }

    /// Cells at the ends of what a batch may name, and what lies beyond.
    fn outermost_floors(&mut self) {
        const END: i64 = MOST_COORDINATE;
        for size in [LEAST_SIZE, 256.0, 1000.1, MOST_SIZE] {
            self.open(size);
            let cells = [-END, 0, END]
                .into_iter()
                .flat_map(|x| [-END, 0, END].map(|y| Cell::new(x, y)));
            self.batch("outermost", &added(cells));
            self.round();
            self.batch(
                "outermost",
                &[
                    (-END, -END + 1, true),
                    (-END, END, false),
                    (END, -END, true),
                    (END, END - 1, true),
                ],
            );
            for (x, y) in [(END, END), (END + 1, END), (END, -END - 1), (-END, END)] {
                self.is_occupied("outermost", Cell::new(x, y));
            }
            for _ in 0..4 {
                self.farthest_circle();
                self.farthest_sweep();
            }
        }
    }
}

/// Borders whose quotient by the size is not their number, so that the border itself lies in the column before it, or
/// a part of what is before it in the column behind.
impl List {
    fn doubtful(&self, n: &i64) -> bool {
        let (size, number) = (self.floor.size(), *n as f64);
        size * number / size != number
    }

    fn any_doubtful(&mut self) -> i64 {
        let most = self.random.pick(&[100, MOST_COORDINATE as u64]);
        loop {
            let n = self.random.below(most) as i64;
            if self.doubtful(&n) {
                return self.random.pick(&[n, -n]);
            }
        }
    }

    fn doubtful_floors(&mut self) {
        for size in [0.1, 3.7, 1000.1, 1.0 / 3.0, 12_345.678] {
            self.open(size);
            let x = (1..).find(|n| self.doubtful(n)).unwrap();
            let y = self.any_doubtful();
            let (low, high) = (Cell::new(x - 1, y - 1), Cell::new(x, y));
            self.batch("doubtful borders", &added([low, high]));
            for _ in 0..3 {
                self.points();
                self.squares();
                for _ in 0..3 {
                    self.circle_by_a_side();
                    self.sweep_along_an_axis();
                }
            }
            self.batch("doubtful borders", &freed([high]));
            self.circles_by_a_doubtful_corner(low, (1.0, 1.0));
            self.batch("doubtful borders", &[(x - 1, y - 1, false), (x, y, true)]);
            self.circles_by_a_doubtful_corner(high, (0.0, 0.0));
        }
    }

    /// They touch the middles of the two sides that meet there.
    fn circles_by_a_doubtful_corner(&mut self, cell: Cell, corner: Offset) {
        let (centre, corner) = (self.at(cell, (0.5, 0.5)), self.at(cell, corner));
        for part in [0.25, 0.5, 1.0, 2.0, 4.0] {
            let radius = part * power_below(self.floor.size());
            let [out, up] = [corner.x - centre.x, corner.y - centre.y].map(|d| radius.copysign(d));
            for p in [
                Point::new(corner.x + out, centre.y),
                Point::new(centre.x, corner.y + up),
            ] {
                self.ask("touches a doubtful border", Circle(p, radius));
            }
        }
    }
}

/// Nothing else is found here, however wide the strip.
impl List {
    fn floors_of_one_cell(&mut self) {
        for (size, x, y) in [(1.0, 1, 1), (2.0, 0, 0), (256.0, -1, 3), (1024.0, 5, -3)] {
            self.open(size);
            self.batch("one cell", &[(x, y, true)]);
            for _ in 0..10 {
                self.strip_that_ends_at_a_corner();
            }
        }
    }
}

/// Cells so small that the last digits of what is far off are a part of a cell.
impl List {
    fn rough_floors(&mut self) {
        for size in [LEAST_SIZE, 0.0013] {
            self.open(size);
            self.batch("rough", &added(checkerboard(3, 2)));
            for _ in 0..30 {
                let [s, t] = [(); 2].map(|_| 2f64.powi(35 + self.random.below(5) as i32));
                self.sweep_past("digits lost", [s, t]);
                self.circle_from_afar("digits lost", s);
            }
        }
    }
}

/// Many cells.
impl List {
    /// So many at a time as a batch may have.
    fn fill(&mut self, kind: &str, cells: &[Cell]) {
        for part in cells.chunks(MOST_ENTRIES) {
            self.batch(kind, &added(part.iter().copied()));
        }
    }

    fn scattered_floor(&mut self) {
        self.open(1000.1);
        let cells: Vec<Cell> = scattered(&mut self.random, MOST_ENTRIES, 300)
            .into_iter()
            .map(|cell| cell.shifted(-150, -150))
            .collect();
        self.fill("scattered", &cells);
        self.random_batch(MOST_ENTRIES);
        for _ in 0..3 {
            self.round();
            self.random_questions();
        }
    }

    /// Racks right of the origin, so that columns left of it come first in a batch and those far to the right last.
    fn full_floor(&mut self) {
        self.open(256.0);
        let cells: Vec<Cell> = racks(MOST_CELLS, 8).into_iter().collect();
        self.fill("racks", &cells);
        self.batch("nothing, on a full floor", &[]);
        self.batch("one more than room", &[(-1, 0, true)]);
        self.batch("one more than room", &[(1000, 0, true)]);
        let (first, last) = (cells[0], cells[MOST_CELLS - 1]);
        let (free_first, free_last) = ((first.x, first.y, false), (last.x, last.y, false));
        self.batch("adds one, then frees one", &[(-1, 0, true), free_last]);
        self.batch(
            "frees one, then adds one",
            &[free_first, (last.x, last.y, true)],
        );
        self.batch(
            "adds two, frees one",
            &[(-2, 0, true), (-1, 7, true), free_last],
        );
        self.batch(
            "adds what is there",
            &[(-1, 0, true), (last.x, last.y, true)],
        );
        self.batch(
            "adds what is there, and one more",
            &[(-1, 0, true), (0, -9, true)],
        );
        self.batch("disorder, and no room", &[(1, -9, true), (0, -9, true)]);
        self.batch(
            "outside, and no room",
            &[(0, -9, true), (MOST_COORDINATE + 1, 0, true)],
        );
        self.pass_the_limit();
        for _ in 0..3 {
            self.round();
            self.random_questions();
        }
        self.random_batch(5);
    }

    /// Half a batch of new cells, then as many removals.
    fn pass_the_limit(&mut self) {
        let half = MOST_ENTRIES / 2;
        let cells = self.floor.cells();
        let mut entries = added((0..half as i64).map(|i| Cell::new(-9 + i / 32, 2 * (i % 32))));
        entries.extend(freed(cells[cells.len() - half..].iter().copied()));
        self.batch("half adds, then half frees, on a full floor", &entries);
        self.batch("one more than room", &[(-10, 0, true)]);
    }
}

/// What is refused, or is at a limit.
impl List {
    fn bad_floors(&mut self) {
        let sizes = [
            0.0,
            -0.0,
            -256.0,
            LEAST_SIZE.next_down(),
            MOST_SIZE.next_up(),
            1e300,
            5e-324,
            f64::INFINITY,
            f64::NEG_INFINITY,
            f64::NAN,
        ];
        for size in sizes {
            self.open(size);
            self.batch("bad size", &[]);
            self.batch("bad size", &[(0, 0, true)]);
            self.batch("bad size, disorder", &[(0, 1, true), (0, 0, true)]);
            let (p, q) = (Point::new(128.0, 128.0), Point::new(f64::NAN, 0.0));
            for (p, kind) in [(p, "bad size"), (q, "bad size, bad number")] {
                self.ask(kind, Question::Point(p));
                self.ask(kind, Square(p, 256.0));
                self.ask(kind, Circle(p, 256.0));
                self.ask(kind, Sweep(p, Point::new(0.0, 0.0), 256.0));
            }
        }
    }

    /// Each number in turn, the others as they should be.
    fn numbers_out_of_bounds(&mut self) {
        self.open(256.0);
        self.batch("block", &added(block(2, 2)));
        for x in [
            f64::NAN,
            f64::INFINITY,
            f64::NEG_INFINITY,
            f64::MAX,
            MOST_QUERY.next_up(),
            -MOST_QUERY.next_up(),
        ] {
            let (good, level, upright) = (
                Point::new(100.0, 300.0),
                Point::new(x, 300.0),
                Point::new(100.0, x),
            );
            for p in [level, upright] {
                self.ask("number out of bounds", Question::Point(p));
                self.ask("number out of bounds", Square(p, 1.0));
                self.ask("number out of bounds", Circle(p, 1.0));
                self.ask("number out of bounds", Sweep(p, good, 1.0));
                self.ask("number out of bounds", Sweep(good, p, 1.0));
            }
            self.lengths("number out of bounds", &[x]);
        }
        self.lengths("length below zero", &[-5e-324, -1e-310, -1.0, -MOST_QUERY]);
        self.lengths("length at its bounds", &[-0.0, 0.0, 5e-324, MOST_QUERY]);
    }

    fn lengths(&mut self, kind: &str, lengths: &[f64]) {
        let (p, q) = (Point::new(-1.0, 300.0), Point::new(100.0, -1.0));
        for length in lengths {
            self.ask(kind, Square(p, *length));
            self.ask(kind, Circle(p, *length));
            self.ask(kind, Sweep(p, q, *length));
        }
    }

    /// A refused batch is gone, and what it named is as it was.
    fn refused(&mut self, kind: &str, entries: &[Entry]) {
        self.batch(kind, entries);
        let (x, y, _) = entries[0];
        self.is_occupied("after a refused batch", Cell::new(x, y));
    }

    fn refused_batches(&mut self) {
        const END: i64 = MOST_COORDINATE;
        self.open(256.0);
        self.batch("block", &added(block(3, 3)));
        let mut many = added((0..256).map(|i| Cell::new(i / 20, 30 + i % 20)));
        many.push((9, END + 1, true));
        self.refused("257 entries, the last outside, in disorder", &many);
        let pairs: [(&str, Entry, Entry); 12] = [
            ("named twice", (9, 9, true), (9, 9, true)),
            ("named twice", (9, 9, false), (9, 9, true)),
            ("disorder", (9, 9, true), (9, 8, true)),
            ("disorder", (9, 9, true), (8, 10, true)),
            ("disorder", (9, -9, true), (-9, 9, true)),
            ("disorder, outside", (END + 1, 0, true), (0, 0, true)),
            (
                "disorder, outside",
                (i64::MAX, 0, true),
                (i64::MIN, 0, true),
            ),
            ("outside", (0, 0, false), (0, END + 1, true)),
            ("outside", (-END - 1, 0, true), (0, 0, false)),
            // as keys these two would be one
            ("outside", (1 << 40, 0, true), ((1 << 40) + 1, 0, true)),
            ("outside", (0, i64::MIN, false), (0, i64::MIN + 1, false)),
            ("outside", (i64::MIN, 0, true), (i64::MAX, 0, true)),
        ];
        for (kind, a, b) in pairs {
            self.refused(kind, &[a, b]);
        }
        for (x, y) in [(END + 1, 0), (0, -END - 1), (1 << 32, 1 << 32)] {
            self.refused("outside", &[(x, y, false)]);
        }
        self.refused(
            "disorder at the end",
            &[(0, 50, true), (1, 0, false), (1, 50, true), (1, 49, true)],
        );
        self.batch("nothing, after refusals", &[]);
    }

    fn pending_entries_are_dropped(&mut self) {
        self.open(2.0);
        self.entry((0, 0, true));
        self.entry((-5, 0, true));
        self.open(2.0);
        self.batch("nothing, after entries on another floor", &[]);
        self.batch("block", &added(block(2, 2)));
        self.batch("nothing, after a batch", &[]);
    }

    /// Pairs that keys cannot hold, some of which would wrap to a cell that is occupied.
    fn any_pair(&mut self) {
        self.open(256.0);
        self.batch("a few cells", &[(-1, -1, true), (0, 0, true), (7, 3, true)]);
        let wrap = 1 << 32;
        for (x, y) in [
            (7, 3),
            (7 + wrap, 3),
            (7, 3 + wrap),
            (6, 3 + wrap),
            (8, 3 - wrap),
            (7 - wrap, 3),
            (7, i64::MAX),
            (i64::MIN, 3),
            (i64::MAX, i64::MAX),
            (i64::MIN, i64::MIN),
            (-1, -1),
            (0, -1),
            (wrap / 2, 0),
            (-wrap / 2 - 1, 0),
            (0, wrap / 2 - 1),
            (0, -wrap / 2),
        ] {
            self.is_occupied("any pair", Cell::new(x, y));
        }
    }

    /// From the origin, where 1e-8 is exact; the cells are aside, where only the width reaches.
    fn sweeps_of_just_1e_8(&mut self) {
        let origin = Point::new(0.0, 0.0);
        for size in [LEAST_SIZE, 1.0, 256.0, 1000.1] {
            self.open(size);
            self.batch("a few cells", &[(-1, 0, true), (0, 1, true), (1, -1, true)]);
            for (n, (u, v)) in (-2..=2)
                .flat_map(|n| [(1.0, 0.0), (0.0, -1.0), (0.6, 0.8)].map(|direction| (n, direction)))
            {
                let length = stepped(1e-8, n);
                let end = Point::new(length * u, length * v);
                self.ask("just 1e-8 long", Sweep(origin, end, 3.0 * size));
            }
            for n in -2..=2 {
                let half = stepped(1e-8, n) / 2.0;
                let (start, end) = (Point::new(half, 0.5 * size), Point::new(-half, -3.5 * size));
                self.ask("just 1e-8 wide", Sweep(start, end, 0.0));
            }
        }
    }
}

const PROGRAM: Program<1> = generator(
    "grid_vectors",
    "Writes floors, batches and questions, and what the Rust with ordered maps answers:\n\
     the list that crate grid_vectors replays.",
    "crates/grid_vectors",
);

fn list() -> List {
    let mut list = List::new();
    list.ordinary_floors();
    list.empty_floors();
    list.outermost_floors();
    list.doubtful_floors();
    list.floors_of_one_cell();
    list.rough_floors();
    list.scattered_floor();
    list.full_floor();
    list.bad_floors();
    list.numbers_out_of_bounds();
    list.refused_batches();
    list.pending_entries_are_dropped();
    list.any_pair();
    list.sweeps_of_just_1e_8();
    list
}

fn main() -> ExitCode {
    PROGRAM.run(|[folder]| {
        is_folder(&folder)?;
        let List {
            kinds,
            counts,
            vectors,
            ..
        } = list();
        note("found (b: confirmed something), nothing, refused:");
        for (name, [found, nothing, refused]) in &kinds {
            note(format!("{found:5} {nothing:5} {refused:5} {name}"));
        }
        tell(&counts);
        vectors.within([1_000_000, usize::MAX])?;
        vectors.write(&folder)
    })
}
