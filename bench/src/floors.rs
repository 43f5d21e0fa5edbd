//! The proved grid beside the Rust's, which is measured twice, with hash maps as published and with ordered maps: the
//! same questions and batches in one run, each side the best of many rounds. Every answer is compared first with the
//! ordered Rust's, and so are the lists of every batch; those of the published Rust have no order.
use crate::measure::{best_of, row, Row, Tell, SIZE};
use crate::Proved;
use oracle::layouts::{racks, scattered, Layout};
use oracle::occupancy::{Cell, Grid, Point};
use oracle::program::Failure;
use oracle::question::{Entry, Floor, Question};
use oracle::{key, ordered, published, Random};
use std::collections::BTreeMap;
use std::hint::black_box;

const COUNTS: [usize; 3] = [10, 100, 1_000];
const QUESTIONS: usize = 20_000;
/// Of a batch and the one that undoes it.
const PAIRS: usize = 20;
const ROUNDS: usize = 50;

/// Columns and rows that a floor's cells lie in, and some more on every side.
struct Area {
    low: Cell,
    high: Cell,
}

impl Area {
    fn around(cells: &Layout, margin: i64) -> Self {
        let ends = |at: fn(&Cell) -> i64| {
            let (low, high) = (cells.iter().map(at).min(), cells.iter().map(at).max());
            (low.unwrap() - margin, high.unwrap() + margin)
        };
        let ((left, right), (bottom, top)) = (ends(|c| c.x), ends(|c| c.y));
        Area {
            low: Cell::new(left, bottom),
            high: Cell::new(right, top),
        }
    }

    fn cell(&self, random: &mut Random) -> Cell {
        let (columns, rows) = self.high - self.low;
        self.low.shifted(
            random.below(columns as u64 + 1) as i64,
            random.below(rows as u64 + 1) as i64,
        )
    }

    fn point(&self, random: &mut Random) -> Point {
        let centre = self.cell(random).center_point(SIZE);
        let [x, y] = [(); 2].map(|_| 0.5 * SIZE * random.unit());
        Point::new(centre.x + x, centre.y + y)
    }

    fn holds(&self, p: Point) -> bool {
        let cell = Cell::from_point(p, SIZE);
        let within = |low, at, high| low <= at && at <= high;
        within(self.low.x, cell.x, self.high.x) && within(self.low.y, cell.y, self.high.y)
    }

    fn point_by(&self, random: &mut Random, p: Point, most: f64) -> Point {
        loop {
            let [x, y] = [(); 2].map(|_| most * random.unit());
            let q = Point::new(p.x + x, p.y + y);
            if (q - p).norm() <= most && self.holds(q) {
                return q;
            }
        }
    }
}

/// What the questions of a row are, and how one is made.
type Kind = (&'static str, fn(&Area, &mut Random) -> Question);

const KINDS: [Kind; 6] = [
    ("point", |area, random| Question::Point(area.point(random))),
    ("square of 300", |area, random| {
        Question::Square(area.point(random), 300.0)
    }),
    ("square of 3000", |area, random| {
        Question::Square(area.point(random), 3_000.0)
    }),
    ("circle of 200", |area, random| {
        Question::Circle(area.point(random), 200.0)
    }),
    ("sweep, at most 20 cells", |area, random| {
        let p = area.point(random);
        Question::Sweep(p, area.point_by(random, p, 20.0 * SIZE), 300.0)
    }),
    ("sweep, any length", |area, random| {
        Question::Sweep(area.point(random), area.point(random), 300.0)
    }),
];

fn best(turns: usize, round: impl FnMut()) -> f64 {
    best_of(ROUNDS, turns, round)
}

fn time_questions(floor: &impl Floor, questions: &[Question]) -> f64 {
    best(questions.len(), || {
        for question in questions {
            black_box(floor.ask(black_box(question)));
        }
    })
}

fn time_batches<F: Floor>(floor: &mut F, [there, back]: [&[Entry]; 2]) -> f64 {
    let batches = [F::batch(there), F::batch(back)];
    best(2 * PAIRS, || {
        for _ in 0..PAIRS {
            for batch in &batches {
                black_box(floor.change(black_box(batch)));
            }
        }
    })
}

/// The same cells on all three sides.
struct Hall {
    name: &'static str,
    cells: Layout,
    proved: Proved,
    hashed: published::occupancy::SparseGrid,
    ordered: ordered::occupancy::SparseGrid,
}

impl Hall {
    fn new(name: &'static str, cells: Layout) -> Self {
        let mut hall = Hall {
            name,
            cells,
            proved: Proved::new(SIZE),
            hashed: published::occupancy::SparseGrid::new(SIZE),
            ordered: ordered::occupancy::SparseGrid::new(SIZE),
        };
        let entries: Vec<Entry> = hall.cells.iter().map(|c| (c.x, c.y, true)).collect();
        for part in entries.chunks(256) {
            hall.change_and_compare(part);
        }
        hall
    }

    fn change_and_compare(&mut self, entries: &[Entry]) {
        self.hashed
            .change(&published::occupancy::SparseGrid::batch(entries));
        let batch = ordered::occupancy::SparseGrid::batch(entries);
        let (confirmed, corners) = self.ordered.change(&batch);
        assert_eq!(0, self.proved.change(&Proved::batch(entries)));
        assert!(self
            .proved
            .confirmed()
            .eq(confirmed.iter().map(|(c, full)| (key(c), *full as u8))));
        assert!(self
            .proved
            .corners()
            .eq(corners.iter().map(|(c, status)| (key(c), status.0))));
        let cells = self.ordered.occupied_cells().into_iter().map(key);
        assert!(self.proved.cells().iter().copied().eq(cells));
    }

    fn compare(&self, questions: &[Question]) {
        for question in questions {
            let wanted = self.ordered.found(question);
            assert_eq!(wanted, self.proved.found(question), "{question:?}");
            assert_eq!(wanted, self.hashed.found(question), "{question:?}");
        }
    }

    fn row(&self, call: &str, [proved, hashed, ordered]: [f64; 3]) -> Row {
        let on = format!("{}, {} cells", self.name, self.cells.len());
        row(call, &on, proved, &[hashed, ordered])
    }

    fn measure_questions(&self, (call, question): Kind) -> Row {
        let (mut random, area) = (Random::default(), Area::around(&self.cells, 2));
        let questions: Vec<Question> = (0..QUESTIONS)
            .map(|_| question(&area, &mut random))
            .collect();
        self.compare(&questions);
        let times = [
            time_questions(&self.proved, &questions),
            time_questions(&self.hashed, &questions),
            time_questions(&self.ordered, &questions),
        ];
        self.row(call, times)
    }

    /// Half of them free a cell, where the floor has as many; the others occupy one in the area or somewhat outside.
    fn entries(&self, count: usize) -> Vec<Entry> {
        let (mut random, area) = (Random::default(), Area::around(&self.cells, 16));
        let cells: Vec<&Cell> = self.cells.iter().collect();
        let mut entries = BTreeMap::new();
        while entries.len() < (count / 2).min(cells.len()) {
            entries.insert(*random.pick(&cells), false);
        }
        while entries.len() < count {
            let cell = area.cell(&mut random);
            if !self.cells.contains(&cell) {
                entries.insert(cell, true);
            }
        }
        entries.into_iter().map(|(c, o)| (c.x, c.y, o)).collect()
    }

    /// There and back, so that the floor is as it was afterwards.
    fn measure_batch(&mut self, count: usize) -> Row {
        let there = self.entries(count);
        let back: Vec<Entry> = there.iter().map(|&(x, y, o)| (x, y, !o)).collect();
        self.change_and_compare(&there);
        self.change_and_compare(&back);
        let times = [
            time_batches(&mut self.proved, [&there, &back]),
            time_batches(&mut self.hashed, [&there, &back]),
            time_batches(&mut self.ordered, [&there, &back]),
        ];
        let cells = self.cells.iter().map(key);
        assert!(self.proved.cells().iter().copied().eq(cells));
        self.row(&format!("batch of {count}, cells alone"), times)
    }
}

fn measure(mut halls: [Hall; 3], tell: Tell) -> Result<(), Failure> {
    for kind in KINDS {
        for hall in &halls {
            tell(hall.measure_questions(kind))?;
        }
    }
    for count in [1, 256] {
        for hall in &mut halls {
            tell(hall.measure_batch(count))?;
        }
    }
    Ok(())
}

pub fn rows(tell: Tell) -> Result<(), Failure> {
    let halls = COUNTS.map(|count| Hall::new("racks", racks(count, 10)));
    measure(halls, tell)?;
    let halls = COUNTS.map(|count| {
        let cells = scattered(&mut Random::default(), count, 2 * count as u64);
        Hall::new("scattered", cells)
    });
    measure(halls, tell)
}
