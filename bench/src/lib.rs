//! The proved functions, as the static library exports them (`bindings/build`), and those of a floor, which has an archive of its own (`bench/build`).
use oracle::question::{Entry, Floor, Question};
use oracle::stand_ins::Point;

pub mod changes;
pub mod floats;
pub mod floors;
pub mod lists;
pub mod map;
pub mod measure;
pub mod segments;
pub mod views;

use runcedau::ffi::runcedau_near_cells;
pub use runcedau::ffi::{
    runcedau_abs, runcedau_ceil_to_i64, runcedau_column_of, runcedau_column_up,
    runcedau_cut_to_i64, runcedau_distance, runcedau_floor_to_i64, runcedau_max, runcedau_min,
    runcedau_root, runcedau_root_threshold,
};
use runcedau::Segment;

// Crate `grid_c`: cells alone, of a cell size, with neither points nor pairs. A slice is a pointer and a length.
unsafe extern "C" {
    /// The key of the cell found, 0 for none, or the refusal's number.
    fn runcedau_floor_ask(
        shape: u8,
        size: f64,
        x0: f64,
        y0: f64,
        x1: f64,
        y1: f64,
        extent: f64,
        count: usize,
        cells: *const u64,
        cells_len: usize,
    ) -> u64;
    /// The refusal's number; `counts` gets how many changes were confirmed, how many corners altered, and how many cells there are then.
    fn runcedau_floor_change_cells(
        size: f64,
        count: usize,
        cells: *mut u64,
        cells_len: usize,
        batch: *const i64,
        batch_len: usize,
        confirmed: *mut u64,
        confirmed_len: usize,
        full: *mut u8,
        full_len: usize,
        corners: *mut u64,
        corners_len: usize,
        statuses: *mut u8,
        statuses_len: usize,
        counts: *mut u64,
        counts_len: usize,
    ) -> u8;
}

pub fn segment(ends: &[f64; 4]) -> Segment {
    let [x0, y0, x1, y1] = *ends;
    Segment::new(runcedau::Point::new(x0, y0), runcedau::Point::new(x1, y1))
}

/// A 1 in `near` for each cell that the segment passes near; false, and nothing written, where there is no room.
pub fn near_cells(
    segment: &[f64; 4],
    size: f64,
    radius: f64,
    cells: &[u64],
    near: &mut [u8],
) -> bool {
    runcedau_near_cells(self::segment(segment), size, radius, cells, near)
}

/// The proved grid with the tables that it is lent: cells and corners as keys.
pub struct Proved {
    size: f64,
    count: usize,
    cells: [u64; 1_024],
    confirmed: [u64; 256],
    full: [u8; 256],
    corners: [u64; 2_304],
    statuses: [u8; 2_304],
    counts: [u64; 3],
}

impl Proved {
    pub fn new(size: f64) -> Self {
        Proved {
            size,
            count: 0,
            cells: [0; 1_024],
            confirmed: [0; 256],
            full: [0; 256],
            corners: [0; 2_304],
            statuses: [0; 2_304],
            counts: [0; 3],
        }
    }

    pub fn cells(&self) -> &[u64] {
        &self.cells[..self.count]
    }

    /// What the last accepted batch confirmed: each cell's key, and 1 or 0.
    pub fn confirmed(&self) -> impl Iterator<Item = (u64, u8)> + '_ {
        let used = self.counts[0] as usize;
        self.confirmed.into_iter().zip(self.full).take(used)
    }

    /// Whose status it altered: each cell's key, and the status.
    pub fn corners(&self) -> impl Iterator<Item = (u64, u8)> + '_ {
        let used = self.counts[1] as usize;
        self.corners.into_iter().zip(self.statuses).take(used)
    }
}

impl Floor for Proved {
    /// Three numbers an entry.
    type Batch = Vec<i64>;
    /// The refusal.
    type Changes = u8;
    /// The found cell's key, 0 for none, or the refusal.
    type Answer = u64;

    fn batch(entries: &[Entry]) -> Vec<i64> {
        entries
            .iter()
            .flat_map(|&(x, y, occupied)| [x, y, occupied as i64])
            .collect()
    }

    fn change(&mut self, batch: &Vec<i64>) -> u8 {
        // SAFETY: every pointer is of a slice of the length behind it, and no two overlap; the function is proved to stay within them.
        let refusal = unsafe {
            runcedau_floor_change_cells(
                self.size,
                self.count,
                self.cells.as_mut_ptr(),
                self.cells.len(),
                batch.as_ptr(),
                batch.len(),
                self.confirmed.as_mut_ptr(),
                self.confirmed.len(),
                self.full.as_mut_ptr(),
                self.full.len(),
                self.corners.as_mut_ptr(),
                self.corners.len(),
                self.statuses.as_mut_ptr(),
                self.statuses.len(),
                self.counts.as_mut_ptr(),
                self.counts.len(),
            )
        };
        if refusal == 0 {
            self.count = self.counts[2] as usize;
        }
        refusal
    }

    fn ask(&self, question: &Question) -> u64 {
        let none = Point::new(0.0, 0.0);
        let (shape, p, q, length) = match *question {
            Question::Point(p) => (0, p, none, 0.0),
            Question::Square(p, width) => (1, p, none, width),
            Question::Circle(p, radius) => (2, p, none, radius),
            Question::Sweep(p, q, width) => (3, p, q, width),
        };
        let (cells, room) = (self.cells.as_ptr(), self.cells.len());
        // SAFETY: the pointer is of a slice of that length; the function is proved to stay within it.
        unsafe {
            runcedau_floor_ask(
                shape, self.size, p.x, p.y, q.x, q.y, length, self.count, cells, room,
            )
        }
    }

    fn found(&self, question: &Question) -> u64 {
        self.ask(question)
    }
}
