//! Floors of the kinds that vectors and benchmarks take, as sets of cells from the origin up.
use crate::occupancy::Cell;
use crate::question::Entry;
use crate::Random;
use std::collections::BTreeSet;

pub type Layout = BTreeSet<Cell>;

/// So many cells in racks two columns deep and `length` rows long, with aisles of two between them; about as many
/// racks beside as behind one another.
pub fn racks(count: usize, length: i64) -> Layout {
    let many = count as i64 / (2 * length) + 1;
    let beside = (many as f64).sqrt().ceil() as i64;
    let cell = |i: i64| {
        let (rack, place) = (i / (2 * length), i % (2 * length));
        let (column, row) = (rack % beside * 4, rack / beside * (length + 2));
        Cell::new(column + place % 2, row + place / 2)
    };
    (0..count as i64).map(cell).collect()
}

/// So many random cells in a square of `width` by `width`.
pub fn scattered(random: &mut Random, count: usize, width: u64) -> Layout {
    let mut cells = Layout::new();
    while cells.len() < count {
        let [x, y] = [(); 2].map(|_| random.below(width) as i64);
        cells.insert(Cell::new(x, y));
    }
    cells
}

pub fn block(columns: i64, rows: i64) -> Layout {
    (0..columns * rows)
        .map(|i| Cell::new(i / rows, i % rows))
        .collect()
}

pub fn checkerboard(columns: i64, rows: i64) -> Layout {
    block(columns, rows)
        .into_iter()
        .filter(|cell| (cell.x + cell.y) % 2 == 0)
        .collect()
}

pub fn moved(layout: Layout, x: i64, y: i64) -> Layout {
    layout.iter().map(|cell| cell.shifted(x, y)).collect()
}

/// Cells that stand alone, so far apart that each has four points of its own at the shifts 1 and 2.
pub fn islands(count: i64) -> Layout {
    (0..count)
        .map(|i| Cell::new(i / 4 * 7 + i % 3, i % 4 * 7 + i / 4 % 2))
        .collect()
}

/// Two cells that make an island a hook, which has five points.
pub fn hook(at: Cell) -> [Cell; 2] {
    [at.shifted(0, 1), at.shifted(1, 0)]
}

/// A batch of these cells.
pub fn entries(cells: impl IntoIterator<Item = Cell>, occupied: bool) -> Vec<Entry> {
    cells.into_iter().map(|c| (c.x, c.y, occupied)).collect()
}
