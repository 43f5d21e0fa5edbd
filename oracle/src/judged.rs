//! The Rust's grid, ordered maps, behind the refusals of RULES 4. A refused call answers its number and alters nothing.
use crate::occupancy::{Cell, CornerStatus, Grid, SparseGrid};
use crate::question::{Entry, Floor, Question};

pub const LEAST_SIZE: f64 = 1.0 / 1024.0;
pub const MOST_SIZE: f64 = 65_536.0;
pub const MOST_ENTRIES: usize = 256;
pub const MOST_COORDINATE: i64 = 1_048_576;
pub const MOST_CELLS: usize = 1_024;
/// 2^40.
pub const MOST_QUERY: f64 = 1_099_511_627_776.0;

/// What an accepted batch did.
pub struct Changes {
    pub confirmed: Vec<(Cell, bool)>,
    pub corners: Vec<(Cell, CornerStatus)>,
    /// Occupied afterwards.
    pub cells: usize,
}

/// A NaN is neither at least nor at most anything.
pub(crate) fn bad_size(size: f64) -> bool {
    !(LEAST_SIZE <= size && size <= MOST_SIZE)
}

fn bad_number(x: f64) -> bool {
    !(-MOST_QUERY <= x && x <= MOST_QUERY)
}

/// Minus zero passes.
fn bad_length(x: f64) -> bool {
    bad_number(x) || x < 0.0
}

pub(crate) fn bad_question(question: &Question) -> bool {
    match *question {
        Question::Point(p) => [p.x, p.y].map(bad_number).contains(&true),
        Question::Square(p, length) | Question::Circle(p, length) => {
            [p.x, p.y].map(bad_number).contains(&true) || bad_length(length)
        }
        Question::Sweep(p, q, width) => {
            [p.x, p.y, q.x, q.y].map(bad_number).contains(&true) || bad_length(width)
        }
    }
}

/// By x, then y, as integers of any size.
fn disordered(batch: &[Entry]) -> bool {
    batch
        .windows(2)
        .any(|pair| (pair[0].0, pair[0].1) >= (pair[1].0, pair[1].1))
}

fn outside(batch: &[Entry]) -> bool {
    let allowed = -MOST_COORDINATE..=MOST_COORDINATE;
    batch
        .iter()
        .any(|(x, y, _)| !allowed.contains(x) || !allowed.contains(y))
}

/// The refusals that a batch alone decides: 3, 4 and 5.
pub(crate) fn judge_batch(batch: &[Entry]) -> Result<(), u64> {
    if batch.len() > MOST_ENTRIES {
        return Err(3);
    }
    if disordered(batch) {
        return Err(4);
    }
    if outside(batch) {
        return Err(5);
    }
    Ok(())
}

/// What a batch does to a grid, limits aside.
pub(crate) fn changed(grid: &SparseGrid, batch: &[Entry]) -> (SparseGrid, Changes) {
    let mut after = grid.clone();
    let (confirmed, corners) = after.change(&SparseGrid::batch(batch));
    let cells = after.occupied_cells().len();
    let changes = Changes {
        confirmed,
        corners,
        cells,
    };
    (after, changes)
}

pub struct Judged(SparseGrid);

impl Judged {
    pub fn new(size: f64) -> Self {
        Judged(SparseGrid::new(size))
    }

    pub fn size(&self) -> f64 {
        self.0.cell_size()
    }

    pub fn cells(&self) -> Vec<Cell> {
        self.0.occupied_cells().copied().collect()
    }

    pub fn is_occupied(&self, cell: &Cell) -> bool {
        self.0.is_occupied(cell)
    }

    pub fn ask(&self, question: &Question) -> Result<Option<Cell>, u64> {
        if bad_size(self.size()) {
            return Err(1);
        }
        if bad_question(question) {
            return Err(8);
        }
        Ok(self.0.ask(question))
    }

    pub fn change(&mut self, batch: &[Entry]) -> Result<Changes, u64> {
        if bad_size(self.size()) {
            return Err(1);
        }
        judge_batch(batch)?;
        self.change_if_room(batch)
    }

    /// Room is judged on the state afterwards only.
    fn change_if_room(&mut self, batch: &[Entry]) -> Result<Changes, u64> {
        let (after, changes) = changed(&self.0, batch);
        if changes.cells > MOST_CELLS {
            return Err(6);
        }
        self.0 = after;
        Ok(changes)
    }
}
