//! Writes the vectors that the program `segment_vectors` replays: `stdin` (function and operands) and `stdout` (the
//! same with the answer of the Rust's own `LineSegment` or `SearchF64` behind it), into the folder that is its one
//! argument. The list is the same on every run. Standard error tells how many vectors there are of each kind, and how
//! many answers came about in each way.
use oracle::occupancy::util::{LineSegment, SearchF64};
use oracle::occupancy::{Cell, Point, Vector};
use oracle::program::{is_folder, note, Program};
use oracle::vectors::{generator, pattern, place, special, stepped, tell, Vectors};
use oracle::{key, Random};
use std::collections::BTreeMap;
use std::process::ExitCode;

type Ends = [Point; 2];

enum Question {
    Vertical(Ends, f64),
    Horizontal(Ends, f64),
    Distance(Ends, Point),
    Near(Ends, Cell, f64, f64),
    Least(Option<f64>, f64),
    Greatest(Option<f64>, f64),
}
use Question::*;

fn line([a, b]: Ends) -> LineSegment {
    LineSegment::new(a, b)
}

/// How many, and the patterns of at most two.
fn values(list: impl IntoIterator<Item = f64>) -> [u64; 3] {
    let mut answer = [0; 3];
    for x in list {
        answer[0] += 1;
        answer[answer[0] as usize] = pattern(x);
    }
    answer
}

fn searched(value: Option<f64>, check: impl Fn(&mut SearchF64)) -> [u64; 3] {
    let mut search = SearchF64 { value };
    check(&mut search);
    values(search.value)
}

impl Question {
    fn letter(&self) -> char {
        match self {
            Vertical(..) => 'v',
            Horizontal(..) => 'h',
            Distance(..) => 'd',
            Near(..) => 'n',
            Least(..) => 'l',
            Greatest(..) => 'g',
        }
    }

    fn operands(&self) -> [u64; 7] {
        let floats = |[a, b]: Ends, more: [f64; 3]| {
            [a.x, a.y, b.x, b.y, more[0], more[1], more[2]].map(pattern)
        };
        match *self {
            Vertical(ends, at) | Horizontal(ends, at) => floats(ends, [at, 0.0, 0.0]),
            Distance(ends, p) => floats(ends, [p.x, p.y, 0.0]),
            Near(ends, cell, size, radius) => {
                let mut all = floats(ends, [0.0, size, radius]);
                all[4] = key(&cell);
                all
            }
            Least(held, other) | Greatest(held, other) => {
                let flag = held.is_some() as u64;
                [
                    flag,
                    pattern(held.unwrap_or(0.0)),
                    pattern(other),
                    0,
                    0,
                    0,
                    0,
                ]
            }
        }
    }

    fn answer(&self) -> [u64; 3] {
        match *self {
            Vertical(ends, x) => values(line(ends).vertical_intersect(x)),
            Horizontal(ends, y) => values(line(ends).horizontal_intersect(y)),
            Distance(ends, p) => values([line(ends).distance_from_point(p)]),
            Near(ends, cell, size, radius) => [
                line(ends).passes_near_cell(&cell, size, radius) as u64,
                0,
                0,
            ],
            Least(held, other) => searched(held, |s| s.check_min(other)),
            Greatest(held, other) => searched(held, |s| s.check_max(other)),
        }
    }

    /// How the answer came about.
    fn way(&self) -> String {
        match *self {
            Vertical(..) | Horizontal(..) => format!("{} values", self.answer()[0]),
            Distance(ends, p) => where_beside(ends, p).to_string(),
            Near(ends, cell, size, radius) => {
                let (way, near) = decided_by(ends, cell, size, radius, |_, bound, d| bound <= d);
                assert_eq!(near as u64, self.answer()[0]);
                way
            }
            Least(held, other) | Greatest(held, other) => {
                let text = |x: f64| if x.is_nan() { "a NaN" } else { "a number" };
                format!("{}, then {}", held.map_or("nothing", text), text(other))
            }
        }
    }
}

/// Where a point is, seen from the segment.
fn where_beside([a, b]: Ends, p: Point) -> &'static str {
    let along = b - a;
    let length = along.norm();
    let shadow = (p - a).dot(&(along / length));
    match length {
        l if l < 1e-8 => "short segment",
        _ if shadow < 0.0 => "before p0",
        _ if shadow == 0.0 => "shadow exactly 0",
        l if shadow < l => "beside",
        l if shadow == l => "shadow exactly the length",
        l if shadow > l => "beyond p1",
        _ => "shadow or length is a NaN",
    }
}

/// The step of the near test that decides, and its answer. Whether a corner is too far is handed in, as a test of the
/// corner's number, the bound and the distance.
fn decided_by(
    ends: Ends,
    cell: Cell,
    size: f64,
    radius: f64,
    far: impl Fn(usize, f64, f64) -> bool,
) -> (String, bool) {
    for (i, (m, n)) in (1..).zip([(0, 0), (0, 1), (1, 0), (1, 1)]) {
        let distance = line(ends).distance_from_point(cell.shifted(m, n).bottom_left_point(size));
        if distance < radius {
            return (format!("corner {i} near"), true);
        }
        if far(i, radius + 1.4143 * size, distance) {
            return (format!("corner {i} far"), false);
        }
    }
    let (low, high) = (cell.bottom_left_point(size), cell.top_right_point(size));
    let columns = |x: f64| low.x < x && x < high.x;
    let rows = |y: f64| low.y < y && y < high.y;
    if let Some(i) = ends.iter().position(|p| columns(p.x) && rows(p.y)) {
        return (format!("end {i} inside"), true);
    }
    let crossed = [
        line(ends).vertical_intersect(low.x).into_iter().any(rows),
        line(ends).vertical_intersect(high.x).into_iter().any(rows),
        line(ends)
            .horizontal_intersect(low.y)
            .into_iter()
            .any(columns),
        line(ends)
            .horizontal_intersect(high.y)
            .into_iter()
            .any(columns),
    ];
    match crossed.iter().position(|&c| c) {
        Some(i) => (format!("side {} crossed", i + 1), true),
        None => ("nothing".to_string(), false),
    }
}

const SCALES: [f64; 6] = [2e-8, 1e-3, 1.0, 100.0, 1e6, 1e12];
const SIZES: [f64; 6] = [1.0 / 1024.0, 0.1, 2.0, 256.0, 1000.1, 65_536.0];
const FAR: i64 = 1_048_640;
const LAST: i64 = (1 << 31) - 1;

/// Values with which steps lose all their digits, overflow, or are not numbers.
const ODD: [f64; 18] = [
    f64::NAN,
    f64::INFINITY,
    f64::NEG_INFINITY,
    0.0,
    -0.0,
    5e-324,
    -5e-324,
    f64::MIN_POSITIVE - 5e-324,
    f64::MIN_POSITIVE,
    f64::MAX,
    f64::MIN,
    1e300,
    1e155,
    -1e155,
    1e-155,
    -1e-8,
    1e17,
    -1.0,
];

#[derive(Default)]
struct List {
    random: Random,
    vectors: Vectors,
    kinds: BTreeMap<String, usize>,
    ways: BTreeMap<String, usize>,
}

impl List {
    fn add(&mut self, kind: &str, question: Question) {
        let letter = question.letter();
        self.vectors
            .push(letter, &question.operands(), &question.answer());
        *self.kinds.entry(format!("{letter} {kind}")).or_default() += 1;
        *self
            .ways
            .entry(format!("{letter} {}", question.way()))
            .or_default() += 1;
    }

    /// Upright, and with the axes exchanged level.
    fn crossing(&mut self, kind: &str, ends: Ends, at: f64) {
        self.add(kind, Vertical(ends, at));
        self.add(kind, Horizontal(ends.map(|p| Point::new(p.y, p.x)), at));
    }

    /// From -scale to scale, half of them multiples of an eighth of it.
    fn number(&mut self, scale: f64) -> f64 {
        let x = self.random.unit();
        scale * self.random.pick(&[x, (x * 8.0).round() / 8.0])
    }

    fn point(&mut self, scale: f64) -> Point {
        Point::new(self.number(scale), self.number(scale))
    }

    fn ends(&mut self, scale: f64) -> Ends {
        [self.point(scale), self.point(scale)]
    }

    fn crossings(&mut self) {
        for scale in SCALES {
            for _ in 0..16 {
                let ends = self.ends(scale);
                let at = self.number(scale);
                self.crossing("random", ends, at);
                let [a, b] = ends.map(|p| p.x);
                let steps = self.random.pick(&[-1, 0, 0, 1]);
                let end = stepped(self.random.pick(&[a, b]), steps);
                self.crossing("at an end or one step beside it", ends, end);
                let at = self
                    .random
                    .pick(&[a / 2.0 + b / 2.0, 2.0 * a - b, 2.0 * b - a]);
                self.crossing("between the ends or as far outside", ends, at);
            }
        }
        for _ in 0..20 {
            let [a, b] = self.ends(100.0);
            for ends in [[a, Point::new(a.x, b.y)], [a, Point::new(b.x, a.y)], [a, a]] {
                self.crossing("axis-parallel or of no length", ends, a.x);
                let at =
                    self.random
                        .pick(&[a.x.next_up(), a.x.next_down(), b.x, a.x / 2.0 + b.x / 2.0]);
                self.crossing("axis-parallel or of no length", ends, at);
            }
        }
        for base in [0.0, 1.0, -3.5, 1024.0, 0.1, -1e-9] {
            for steps in -2..=2 {
                let (y, z) = (self.number(100.0), self.number(100.0));
                let x = stepped(base + 1e-8, steps);
                let ends = [Point::new(base, y), Point::new(x, z)];
                let at = self.random.pick(&[base, x, base / 2.0 + x / 2.0]);
                self.crossing("difference near 1e-8", ends, at);
                self.crossing("difference near 1e-8", [ends[1], ends[0]], at);
            }
        }
    }

    /// At the ends, on the segment, beyond either end, upright over an end, over the segment.
    fn beside(&mut self, kind: &str, ends: Ends) {
        let [a, b] = ends;
        let along = (b - a) * self.random.pick(&[0.125, 0.25, 1.0 / 3.0, 0.75]);
        let across = Vector::new(a.y - b.y, b.x - a.x) * self.random.pick(&[0.25, -0.5, 1.0, -3.0]);
        let on = a + along;
        for p in [
            a,
            b,
            on,
            a - along,
            b + along,
            a + across,
            b + across,
            on + across,
        ] {
            self.add(kind, Distance(ends, p));
        }
    }

    fn distances(&mut self) {
        for scale in SCALES {
            for _ in 0..24 {
                let (ends, p) = (self.ends(scale), self.point(2.0 * scale));
                self.add("random", Distance(ends, p));
            }
            for _ in 0..6 {
                let ends = self.ends(scale);
                self.beside("random segment, point by it", ends);
            }
        }
        for _ in 0..20 {
            let [x, y, z, w] = [(); 4].map(|_| (self.random.unit() * 20.0).round());
            let [a, b] = [Point::new(x, y), Point::new(z, w)];
            self.beside("whole numbers, point by it", [a, b]);
            self.beside("axis-parallel, point by it", [a, Point::new(x, w + 0.5)]);
            self.beside("axis-parallel, point by it", [a, Point::new(z + 0.5, y)]);
            let p = self.point(20.0);
            self.add("of no length", Distance([a, a], p));
            self.add("of no length", Distance([a, a], a));
        }
        self.short_distances();
    }

    fn short_distances(&mut self) {
        let half = 0.5f64.sqrt();
        let directions = [
            (1.0, 0.0),
            (0.0, -1.0),
            (0.6, 0.8),
            (-0.8, 0.6),
            (half, half),
        ];
        for ((x, y), base) in directions
            .into_iter()
            .flat_map(|d| [0.0, 1.0, -0.1].map(|base| (d, base)))
        {
            let a = Point::new(base, base);
            for n in -3..=3 {
                let b = Point::new(stepped(base + 1e-8 * x, n), stepped(base + 1e-8 * y, n));
                let kind = match (b - a).norm() {
                    l if l < 1e-8 => "length just below 1e-8",
                    l if l > 1e-8 => "length just above 1e-8",
                    _ => "length exactly 1e-8",
                };
                let scale = self.random.pick(&[1e-8, 1.0]);
                let p = self.point(scale);
                self.add(kind, Distance([a, b], p));
                self.add(kind, Distance([b, a], b));
            }
        }
    }
}

/// Columns and rows.
type Offset = (f64, f64);

const NONE: [f64; 2] = [0.0, -0.0];
const NONE_OR_TINY: [f64; 5] = [0.0, -0.0, 1e-310, 1e-9, 0.05];
const USUAL: [f64; 7] = [0.0, 0.25, 0.5, 0.78125, 1.0, 1.3, 1.7];
const WIDE: [f64; 5] = [3.0, 64.0, 36_028_797_018_963_968.0, 1e300, -1.0];
const ON_A_LINE: [f64; 10] = [-2.0, -1.0, -0.5, 0.0, 0.25, 0.5, 0.75, 1.0, 1.5, 3.0];

/// The questions of the near test.
impl List {
    fn cell(&mut self) -> (Cell, f64) {
        let (x, y) =
            self.random
                .pick(&[(0, 0), (0, 0), (-5, 3), (FAR, -FAR), (-FAR, FAR), (77, FAR)]);
        (Cell::new(x, y), self.random.pick(&SIZES))
    }

    /// Ends as offsets from the cell's low corner, radii in sizes.
    fn near_at(&mut self, kind: &str, (cell, size): (Cell, f64), ends: [Offset; 2], radii: &[f64]) {
        let ends = ends.map(|(u, v)| place(cell, size, u, v));
        let radius = size * self.random.pick(radii);
        self.add(kind, Near(ends, cell, size, radius));
    }

    fn near(&mut self, kind: &str, ends: [Offset; 2], radii: &[f64]) {
        let at = self.cell();
        self.near_at(kind, at, ends, radii);
    }

    /// Within the reach, half of them multiples of one half.
    fn offset(&mut self, reach: f64) -> Offset {
        let (u, v) = (reach * self.random.unit(), reach * self.random.unit());
        self.random
            .pick(&[(u, v), ((u * 2.0).round() / 2.0, (v * 2.0).round() / 2.0)])
    }

    /// Off the corners.
    fn inside(&mut self) -> Offset {
        (
            0.5 + 0.3 * self.random.unit(),
            0.5 + 0.3 * self.random.unit(),
        )
    }

    fn on_side(&mut self, side: u64) -> Offset {
        let (u, v) = self.inside();
        [(0.0, v), (1.0, v), (u, 0.0), (u, 1.0)][side as usize]
    }

    fn near_anywhere(&mut self) {
        for _ in 0..400 {
            let ends = [self.offset(4.0), self.offset(4.0)];
            self.near("random", ends, &USUAL);
        }
        for _ in 0..60 {
            let ends = [self.offset(4.0), self.offset(4.0)];
            self.near("wide or negative radius", ends, &WIDE);
            let (u, v) = self.offset(1000.0);
            let ends = [(u, v), (u + ends[0].0, v + ends[0].1)];
            self.near("far off", ends, &USUAL);
            let ends = [self.offset(2.0), self.offset(2.0)];
            let [x, y] = [(); 2].map(|_| self.random.pick(&[-LAST - 1, LAST, -FAR, FAR]));
            let size = self.random.pick(&SIZES);
            self.near_at("extreme columns", (Cell::new(x, y), size), ends, &USUAL);
        }
    }

    /// How far one of the cell's corners is.
    fn corner_distance(&mut self, ends: Ends, cell: Cell, size: f64) -> f64 {
        let corner = cell.shifted(self.random.pick(&[0, 1]), self.random.pick(&[0, 1]));
        line(ends).distance_from_point(corner.bottom_left_point(size))
    }

    /// Ends so far off that the corners' distances have lost their digits.
    fn rough(&mut self) -> (Ends, Cell, f64, f64) {
        let (cell, size) = self.cell();
        let power = 2f64.powi(46 + self.random.below(12) as i32);
        let ((u, v), (w, z)) = (self.offset(power), self.offset(1.0));
        let other = self.random.pick(&[(w - u, z - v), (w + u, z + v)]);
        let ends = [(u, v), other].map(|(u, v)| place(cell, size, u, v));
        let distance = self.corner_distance(ends, cell, size);
        let radius = self
            .random
            .pick(&[size, 4.0 * size, distance, distance - 1.4143 * size]);
        (ends, cell, size, radius)
    }

    /// By geometry no corner is near where another one is too far. So only rounding shows whether each corner is
    /// tested for being too far, and whether that test is strict.
    fn near_by_rounding(&mut self) {
        for (corner, strict) in (1..=4).flat_map(|c| [(c, false), (c, true)]) {
            let altered = |i, bound, d| {
                if i == corner {
                    strict && bound < d
                } else {
                    bound <= d
                }
            };
            let mut wanted = 12;
            while wanted > 0 {
                let (ends, cell, size, radius) = self.rough();
                let near = line(ends).passes_near_cell(&cell, size, radius);
                if decided_by(ends, cell, size, radius, altered).1 != near {
                    self.add(
                        "by a corner too far, digits lost",
                        Near(ends, cell, size, radius),
                    );
                    wanted -= 1;
                }
            }
        }
    }

    fn near_from_infinity(&mut self) {
        for _ in 0..40 {
            let side = self.random.below(4);
            let (p, (u, v)) = (self.on_side(side), self.offset(3.0));
            let far = self.random.pick(&[f64::INFINITY, f64::NEG_INFINITY]);
            let q = if side < 2 { (u, far) } else { (far, v) };
            let ends = self.random.pick(&[[p, q], [q, p]]);
            self.near("an end on a side, the other at infinity", ends, &USUAL);
        }
    }

    fn near_by_a_side(&mut self) {
        for _ in 0..160 {
            let (m, n) = self
                .random
                .pick(&[(0.0, 0.0), (0.0, 1.0), (1.0, 0.0), (1.0, 1.0)]);
            let (u, v) = self.offset(3.0);
            self.through("through a corner", (m, n), (m + u, n + v), &NONE_OR_TINY);
            let i = self.random.below(2);
            let across = self.on_side([1 - m as u64, 3 - n as u64][i as usize]);
            self.through("through a corner and a side", (m, n), across, &NONE);
            let (i, j) = (self.random.below(4), self.random.below(3));
            let (p, q) = (self.on_side(i), self.on_side((i + 1 + j) % 4));
            self.through("through two sides", p, q, &NONE_OR_TINY);

            let (s, t) = (self.random.pick(&ON_A_LINE), self.random.pick(&ON_A_LINE));
            let ends = self.random.pick(&[[(m, s), (m, t)], [(s, m), (t, m)]]);
            self.near("along an edge", ends, &NONE_OR_TINY);
            let ends = self
                .random
                .pick(&[[(s, s), (t, t)], [(s, 1.0 - s), (t, 1.0 - t)]]);
            self.near("along a diagonal", ends, &NONE_OR_TINY);

            let (p, q, r) = (self.inside(), self.inside(), self.offset(4.0));
            let ends = self.random.pick(&[[p, q], [p, r], [r, p]]);
            self.near("an end or both inside", ends, &NONE_OR_TINY);
            let ends = [(-p.0, -p.1), (-p.0 - q.0, -p.1 - q.1)];
            self.near("diagonally off", ends, &USUAL);
        }
    }

    /// From p or before it to q or beyond.
    fn through(&mut self, kind: &str, p: Offset, q: Offset, radii: &[f64]) {
        let (u, v) = (q.0 - p.0, q.1 - p.1);
        let [s, t] = [(); 2].map(|_| self.random.pick(&[0.0, 0.5, 1.0]));
        let ends = [(p.0 - u * s, p.1 - v * s), (q.0 + u * t, q.1 + v * t)];
        self.near(kind, ends, radii);
    }

    /// Between the centres of two cells, as the pairs of points are.
    fn near_pairs(&mut self) {
        for _ in 0..50 {
            let (cell, size) = self.cell();
            let (u, v) = self.offset(6.0);
            let (w, z) = self.offset(4.0);
            let other = cell.shifted(u as i64, v as i64);
            let ends = [cell, other].map(|c| c.center_point(size));
            let end = self.random.pick(&[cell, other]);
            for i in 0..9 {
                let radius = size * self.random.pick(&USUAL);
                let by = end.shifted(i / 3 - 1, i % 3 - 1);
                self.add("around a pair's end", Near(ends, by, size, radius));
            }
            let by = cell.shifted(w as i64, z as i64);
            let distance = self.corner_distance(ends, by, size);
            for n in -1..=1 {
                let radius = stepped(distance, n);
                self.add("a corner at the radius", Near(ends, by, size, radius));
                let radius = stepped(distance - 1.4143 * size, n);
                self.add("a corner at the bound", Near(ends, by, size, radius));
            }
        }
    }

    /// In cells of size 2 all is whole numbers, and with these steps so is the length.
    fn near_exactly(&mut self) {
        for (dx, dy, length) in [(5, 12, 13), (12, -5, 13), (-3, 4, 5), (-4, -3, 5)] {
            let ends = [(0, 0), (dx, dy)].map(|c| Cell::from(c).center_point(2.0));
            let steps = |d: i64| d.min(0) - 2..=d.max(0) + 2;
            for (x, y) in steps(dx).flat_map(|x| steps(dy).map(move |y| (x, y))) {
                let times =
                    |(m, n): (i64, i64)| (dx * (2 * (y + n) - 1) - dy * (2 * (x + m) - 1)).abs();
                for radius in 1..=2 {
                    if [(0, 0), (0, 1), (1, 0), (1, 1)]
                        .iter()
                        .any(|c| times(*c) == radius * length)
                    {
                        self.add(
                            "a corner at the radius, whole",
                            Near(ends, Cell::new(x, y), 2.0, radius as f64),
                        );
                    }
                }
            }
        }
    }
}

/// Operands that are hardly numbers, and the searches.
impl List {
    fn ask(&mut self, kind: &str, numbers: [f64; 6]) {
        let [a, b, c, d, e, f] = numbers;
        let ends = [Point::new(a, b), Point::new(c, d)];
        self.crossing(kind, ends, e);
        self.add(kind, Distance(ends, Point::new(e, f)));
        let (x, y) = self.offset(3.0);
        self.add(kind, Near(ends, Cell::new(x as i64, y as i64), e, f));
    }

    fn odd(&mut self) {
        for place in 0..6 {
            for odd in ODD {
                let mut numbers = [(); 6].map(|_| self.number(3.0));
                numbers[place] = odd;
                self.ask("one odd operand", numbers);
            }
        }
        for _ in 0..40 {
            let numbers = [(); 6].map(|_| {
                let (x, odd) = (self.number(3.0), self.random.pick(&ODD));
                self.random.pick(&[x, odd])
            });
            self.ask("several odd operands", numbers);
            let numbers = [(); 6].map(|_| f64::from_bits(self.random.next()));
            self.ask("any patterns", numbers);
        }
    }

    /// Which zero comes of two zeros is open (docs/DIFFERENCES.md), so these are left out.
    fn searches(&mut self) {
        let list: Vec<f64> = special().into_iter().map(f64::from_bits).collect();
        for _ in 0..200 {
            let (x, y) = (self.random.pick(&list), self.random.pick(&list));
            let (x, y) = (
                self.random.pick(&[x, x, f64::NAN]),
                self.random.pick(&[x, y, y, f64::NAN]),
            );
            let held = self.random.pick(&[None, Some(x), Some(x), Some(x)]);
            if !(held == Some(0.0) && y == 0.0) {
                self.add("pair", Least(held, y));
                self.add("pair", Greatest(held, y));
            }
        }
    }
}

const PROGRAM: Program<1> = generator(
    "segment_vectors",
    "Writes questions about segments, and what the Rust answers:\n\
     the list that crate segment_vectors replays.",
    "crates/segment_vectors",
);

fn list() -> List {
    let mut list = List::default();
    list.crossings();
    list.distances();
    list.near_anywhere();
    list.near_by_rounding();
    list.near_from_infinity();
    list.near_by_a_side();
    list.near_pairs();
    list.near_exactly();
    list.odd();
    list.searches();
    list
}

fn main() -> ExitCode {
    PROGRAM.run(|[folder]| {
        is_folder(&folder)?;
        let list = list();
        tell(&list.kinds);
        tell(&list.ways);
        note(format!("{:6} in all", list.kinds.values().sum::<usize>()));
        list.vectors.write(&folder)
    })
}
