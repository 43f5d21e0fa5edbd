//! The four questions as one type, and what vectors and benchmarks ask of a floor.
use crate::stand_ins::Point;

/// One question with its shape and that shape's own lengths.
#[derive(Debug, Clone, Copy)]
pub enum Question {
    Point(Point),
    /// Centre and width.
    Square(Point, f64),
    /// Centre and radius.
    Circle(Point, f64),
    /// Ends and width.
    Sweep(Point, Point, f64),
}

/// A cell's column and row, and whether it is to be occupied.
pub type Entry = (i64, i64, bool);

/// The Rust's grid with either kind of maps, or the proved one.
pub trait Floor {
    type Batch;
    type Changes;
    type Answer;

    fn batch(entries: &[Entry]) -> Self::Batch;
    fn change(&mut self, batch: &Self::Batch) -> Self::Changes;
    fn ask(&self, question: &Question) -> Self::Answer;

    /// The found cell's key, or 0.
    fn found(&self, question: &Question) -> u64;
}
