//! Places, cells and segments: of no map, and refusing nothing.
//!
//! Whatever is handed in, there is an answer: the whole number of a NaN is 0, and one beyond an
//! `i64` is brought to the nearer end.
use crate::{ffi, Cell};
use std::fmt;

/// A place on the floor.
#[repr(C)]
#[derive(Clone, Copy, Debug, PartialEq)]
pub struct Point {
    /// It grows to the east.
    pub x: f64,
    /// It grows to the north.
    pub y: f64,
}

impl Point {
    /// The place at x and y.
    pub fn new(x: f64, y: f64) -> Self {
        Point { x, y }
    }
}

/// `(128, 0.5)`
impl fmt::Display for Point {
    fn fmt(&self, f: &mut fmt::Formatter) -> fmt::Result {
        write!(f, "({}, {})", self.x, self.y)
    }
}

/// The straight line from one place to another.
#[repr(C)]
#[derive(Clone, Copy, Debug, PartialEq)]
pub struct Segment {
    /// One end.
    pub p0: Point,
    /// The other end.
    pub p1: Point,
}

/// Where a segment meets a line, as the library answers it.
#[repr(C)]
#[derive(Clone, Copy, Debug, PartialEq)]
pub struct Crossings {
    /// How many places there are: 0, 1 or 2.
    pub count: u8,
    /// The first, or 0.0.
    pub first: f64,
    /// The second, or 0.0.
    pub second: f64,
}

impl Crossings {
    fn list(self) -> Vec<f64> {
        [self.first, self.second][..self.count as usize].to_vec()
    }
}

impl Cell {
    /// The cell that a place is in; one on a border is in the cell with the greater number.
    ///
    /// ```
    /// use runcedau::{Cell, Point};
    ///
    /// assert_eq!(Cell::from_point(Point::new(-1.0, 256.0), 256.0), Cell::new(-1, 1));
    /// ```
    pub fn from_point(p: Point, cell_size: f64) -> Cell {
        ffi::runcedau_cell_of(cell_size, p)
    }

    /// The place in the middle of the cell.
    pub fn center_point(self, cell_size: f64) -> Point {
        ffi::runcedau_centre(cell_size, self)
    }

    /// The corner of the cell with the least x and y.
    pub fn bottom_left_point(self, cell_size: f64) -> Point {
        ffi::runcedau_bottom_left(cell_size, self)
    }
}

impl Segment {
    /// The segment between two places.
    pub fn new(p0: Point, p1: Point) -> Self {
        Segment { p0, p1 }
    }

    /// How far a place is from the nearest place of the segment.
    pub fn distance_from_point(self, p: Point) -> f64 {
        ffi::runcedau_distance(self, p)
    }

    /// The y at which the segment meets the vertical line at x: none, one, or both ends where it
    /// lies on the line.
    pub fn vertical_intersect(self, x: f64) -> Vec<f64> {
        ffi::runcedau_vertical(self, x).list()
    }

    /// The x at which the segment meets the horizontal line at y: none, one, or both ends where it
    /// lies on the line.
    pub fn horizontal_intersect(self, y: f64) -> Vec<f64> {
        ffi::runcedau_horizontal(self, y).list()
    }

    /// The near test (RULES 1.11), by which a cell that becomes occupied becomes the blocker of a
    /// pair.
    pub fn passes_near_cell(self, cell: Cell, cell_size: f64, radius: f64) -> bool {
        ffi::runcedau_near(self, cell, cell_size, radius)
    }
}

/// How many cells out from its corner a point lies: radius / cell size + 0.5, rounded up
/// (`calculate_cell_shift` in open-rmf/mapf).
pub fn cell_shift(radius: f64, cell_size: f64) -> i64 {
    ffi::runcedau_shift(cell_size, radius)
}

/// The largest whole number that is not above x.
pub fn floor(x: f64) -> i64 {
    ffi::runcedau_floor_to_i64(x)
}

/// The least whole number that is not below x.
pub fn ceil(x: f64) -> i64 {
    ffi::runcedau_ceil_to_i64(x)
}

/// x without its sign.
pub fn abs(x: f64) -> f64 {
    ffi::runcedau_abs(x)
}

/// The square root, correctly rounded.
pub fn sqrt(x: f64) -> f64 {
    ffi::runcedau_root(x)
}
