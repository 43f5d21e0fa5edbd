//! The Rust's grid as a floor. Like occupancy/ this text is read twice, over ordered maps and over hash maps.
use super::maps::HashMap;
use super::occupancy::{Cell, CornerStatus, Grid, SparseGrid};
use crate::question::{Entry, Floor, Question};

impl Floor for SparseGrid {
    type Batch = HashMap<Cell, bool>;
    type Changes = (Vec<(Cell, bool)>, Vec<(Cell, CornerStatus)>);
    type Answer = Option<Cell>;

    fn batch(entries: &[Entry]) -> Self::Batch {
        entries
            .iter()
            .map(|&(x, y, occupied)| (Cell::new(x, y), occupied))
            .collect()
    }

    #[inline(never)]
    fn change(&mut self, batch: &Self::Batch) -> Self::Changes {
        self.change_cells(batch)
    }

    #[inline(never)]
    fn ask(&self, question: &Question) -> Option<Cell> {
        match *question {
            Question::Point(p) => self.is_point_occupied(p),
            Question::Square(p, width) => self.is_square_occupied(p, width),
            Question::Circle(p, radius) => self.is_circle_occupied(p, radius),
            Question::Sweep(p0, p1, width) => self.is_sweep_occupied(p0, p1, width),
        }
    }

    fn found(&self, question: &Question) -> u64 {
        self.ask(question)
            .map_or(0, |cell| crate::key_of(cell.x, cell.y))
    }
}
