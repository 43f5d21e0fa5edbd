//! What calls on a map answer: changes, points, pairs.
use crate::Cell;
use std::fmt;

/// What an accepted batch did.
#[derive(Clone, Debug, Default, PartialEq, Eq, Hash)]
pub struct Changes {
    /// The cells that the batch really changed, ascending, each with whether it is now occupied.
    /// An entry that says what its cell was already is not among them.
    pub confirmed: Vec<(Cell, bool)>,
    /// The cells whose corners altered, each with its new status, in the order in which they were
    /// met (RULES 1.9).
    pub corners: Vec<(Cell, u8)>,
}

/// A point: where a cart turns round a corner.
#[derive(Clone, Copy, Debug, PartialEq, Eq, Hash)]
pub struct VisiblePoint {
    /// Where it is.
    pub cell: Cell,
    /// The corners that it belongs to, as a sum: southwest 1, southeast 2, northwest 4,
    /// northeast 8.
    pub status: u8,
    /// The occupied cell that leaves no room for a cart here, or none.
    pub blocker: Option<Cell>,
}

/// Two points, each in the visible quadrant of the other (RULES 1.8), lesser cell first.
#[derive(Clone, Copy, Debug, PartialEq, Eq, Hash)]
pub struct Pair {
    /// The end that comes first by x, then y.
    pub lesser: Cell,
    /// The other end.
    pub greater: Cell,
    /// The occupied cell that is in the way of a cart from one end to the other, or none.
    pub blocker: Option<Cell>,
}

impl Pair {
    /// Whether both pairs have the same two points; blockers are left out.
    ///
    /// Two maps with the same cells, cell size and radius have the same points and pairs, but a
    /// pair keeps a blocker that came while it was there, so its blocker depends on the order of
    /// the changes too (RULES 7.3).
    ///
    /// ```
    /// use runcedau::{Cell, Pair};
    ///
    /// let ends = Pair { lesser: Cell::new(-2, 2), greater: Cell::new(2, 2), blocker: None };
    /// let blocked = Pair { blocker: Some(Cell::new(-3, 2)), ..ends };
    /// assert!(ends.same_ends(&blocked));
    /// assert_ne!(ends, blocked);
    /// ```
    pub fn same_ends(&self, other: &Pair) -> bool {
        self.lesser == other.lesser && self.greater == other.greater
    }
}

fn blocker(cell: Option<Cell>) -> String {
    cell.map_or("no blocker".into(), |cell| format!("blocker {cell}"))
}

/// `-2,2 status 4, blocker -3,2`
impl fmt::Display for VisiblePoint {
    fn fmt(&self, f: &mut fmt::Formatter) -> fmt::Result {
        let blocker = blocker(self.blocker);
        write!(f, "{} status {}, {blocker}", self.cell, self.status)
    }
}

/// `-2,2 to 2,2, no blocker`
impl fmt::Display for Pair {
    fn fmt(&self, f: &mut fmt::Formatter) -> fmt::Result {
        let blocker = blocker(self.blocker);
        write!(f, "{} to {}, {blocker}", self.lesser, self.greater)
    }
}
