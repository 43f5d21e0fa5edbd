//! The Rust's `Visibility`, ordered maps, behind the refusals of RULES 4. A refused call answers its number and alters nothing.
use crate::judged::{
    bad_question, bad_size, changed, judge_batch, Changes, MOST_CELLS, MOST_COORDINATE,
};
use crate::occupancy::{Cell, CornerStatus, Grid, SparseGrid, Visibility};
use crate::question::{Entry, Floor, Question};

pub const MOST_POINTS: usize = 64;
pub const MOST_SHIFT: f64 = 64.0;

/// How much further than in a batch a cell may lie that a question names.
pub const BEYOND: i64 = 64;

/// In floats, before any cast.
pub fn shift(size: f64, radius: f64) -> f64 {
    (radius / size + 0.5).ceil()
}

/// Minus zero passes, a NaN and what is infinite do not.
fn bad_radius(size: f64, radius: f64) -> bool {
    !(radius.is_finite() && radius >= 0.0 && shift(size, radius) <= MOST_SHIFT)
}

#[derive(Clone)]
pub struct JudgedMap {
    rust: Visibility<SparseGrid>,
    size: f64,
}

impl JudgedMap {
    pub fn open(size: f64, radius: f64) -> Result<Self, u64> {
        if bad_size(size) {
            return Err(1);
        }
        if bad_radius(size, radius) {
            return Err(2);
        }
        let rust = Visibility::new(SparseGrid::new(size), radius);
        Ok(JudgedMap { rust, size })
    }

    pub fn rust(&self) -> &Visibility<SparseGrid> {
        &self.rust
    }

    pub fn size(&self) -> f64 {
        self.size
    }

    pub fn shift(&self) -> i64 {
        shift(self.size, self.rust.agent_radius()) as i64
    }

    pub fn cells(&self) -> usize {
        self.rust.grid().occupied_cells().len()
    }

    pub fn points(&self) -> usize {
        self.rust.debug_points().len()
    }

    /// Whether some blocker is another than on a map with the same cells that is built afresh.
    pub fn tells_of_the_past(&self) -> bool {
        let mut afresh = self.rust.clone();
        afresh.change_agent_radius(self.rust.agent_radius());
        afresh.debug_points() != self.rust.debug_points()
            || afresh.debug_edges() != self.rust.debug_edges()
    }

    /// Each pair, lesser cell first, with its blocker. Either end has to tell the same.
    pub fn pairs(&self) -> Vec<(Cell, Cell, Option<Cell>)> {
        let rows = self.rust.debug_edges();
        let ends = rows
            .iter()
            .flat_map(|(p, row)| row.iter().map(|(q, blocker)| (*p, *q, *blocker)));
        let (pairs, others): (Vec<_>, Vec<_>) = ends.partition(|(p, q, _)| p < q);
        assert_eq!(pairs.len(), others.len());
        assert!(others.iter().all(|(q, p, blocker)| rows[p][q] == *blocker));
        pairs
    }

    /// What the Rust makes of a batch, limits aside.
    pub fn changed(&self, batch: &[Entry]) -> (Self, Changes) {
        let mut after = self.clone();
        let (_, changes) = changed(self.rust.grid(), batch);
        let yes = after.rust.change_cells(&SparseGrid::batch(batch));
        assert_eq!(yes, !changes.confirmed.is_empty());
        (after, changes)
    }

    /// Room is judged on the state afterwards only.
    pub fn change(&mut self, batch: &[Entry]) -> Result<Changes, u64> {
        judge_batch(batch)?;
        let (after, changes) = self.changed(batch);
        if changes.cells > MOST_CELLS {
            return Err(6);
        }
        self.keep(after)?;
        Ok(changes)
    }

    /// Setting the same radius is a change too: blockers are told afresh.
    pub fn change_radius(&mut self, radius: f64) -> Result<(), u64> {
        if bad_radius(self.size, radius) {
            return Err(2);
        }
        let mut after = self.clone();
        after.rust.change_agent_radius(radius);
        self.keep(after)
    }

    fn keep(&mut self, after: Self) -> Result<(), u64> {
        if after.points() > MOST_POINTS {
            return Err(7);
        }
        *self = after;
        Ok(())
    }
}

fn off_map(cell: Cell) -> bool {
    let allowed = -MOST_COORDINATE - BEYOND..=MOST_COORDINATE + BEYOND;
    !allowed.contains(&cell.x) || !allowed.contains(&cell.y)
}

/// The questions and lists, which leave the map as it is. The order is the Rust's own.
impl JudgedMap {
    pub fn is_occupied(&self, cell: Cell) -> bool {
        self.rust.grid().is_occupied(&cell)
    }

    pub fn ask(&self, question: &Question) -> Result<Option<Cell>, u64> {
        if bad_question(question) {
            return Err(8);
        }
        Ok(self.rust.grid().ask(question))
    }

    pub fn visibility(&self, cell: Cell) -> Result<Vec<Cell>, u64> {
        if off_map(cell) {
            return Err(5);
        }
        Ok(self.rust.calculate_visibility(cell).collect())
    }

    pub fn neighbours(&self, cell: Cell) -> Result<Vec<Cell>, u64> {
        if off_map(cell) {
            return Err(5);
        }
        Ok(self.rust.neighbors(cell).collect())
    }

    pub fn occupied_cells(&self) -> Vec<Cell> {
        self.rust.grid().occupied_cells().copied().collect()
    }

    pub fn corners(&self) -> Vec<(Cell, CornerStatus)> {
        let corners = self.rust.grid().corners();
        corners.map(|(cell, status)| (*cell, *status)).collect()
    }

    pub fn free_points(&self) -> Vec<Cell> {
        self.rust.iter_points().map(|(cell, _)| *cell).collect()
    }

    pub fn open_pairs(&self) -> Vec<(Cell, Cell)> {
        self.rust.iter_edges().map(|(p, q)| (*p, *q)).collect()
    }
}
