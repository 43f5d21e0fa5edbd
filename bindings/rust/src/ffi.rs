//! The static library's functions, as the C header has them, over slices: for those who own their
//! tables. [`crate::Map`] is for everybody else.
//!
//! A map is a [`Map`] and five tables that belong together (RULES 2.1). Where the `refusal` of an
//! answer is not 0 the call has written nothing, all else in the answer is zero, and the struct in
//! it is no map: what was handed in still is. Once a call is accepted, only the struct that it gave
//! fits the tables, and one from before is to be used no more.
//!
//! A table or output that is shorter than its need (RULES 2.1, 2.2) is refused with 9, the struct
//! with 1, 2, 6 or 7. A cell in a list is its key; a blocker is 0 for none, or a key.
use crate::geometry::{Crossings, Point, Segment};
use crate::Cell;

/// What belongs to a map beside its five tables.
#[repr(C)]
#[derive(Clone, Copy, Debug, Default, PartialEq)]
pub struct Map {
    /// The cell size.
    pub size: f64,
    /// The radius of a cart.
    pub radius: f64,
    /// How many places of the table of cells are used.
    pub cells: usize,
    /// How many places of the tables of points, statuses and blockers are used.
    pub points: usize,
}

/// What opening a map or changing its radius gave.
#[repr(C)]
#[derive(Clone, Copy, Debug, PartialEq)]
pub struct Outcome {
    /// 0, or why not.
    pub refusal: u8,
    /// The map from now on.
    pub map: Map,
}

/// What reading a map file gave.
#[repr(C)]
#[derive(Clone, Copy, Debug, PartialEq)]
pub struct Opened {
    /// 0, or why not.
    pub refusal: u8,
    /// Where it was refused: the number of the field, counted from 0.
    pub field: u64,
    /// The map from now on.
    pub map: Map,
}

/// What a batch did.
#[repr(C)]
#[derive(Clone, Copy, Debug, PartialEq)]
pub struct Changed {
    /// 0, or why not.
    pub refusal: u8,
    /// Whether something was confirmed.
    pub yes: bool,
    /// How many confirmed changes were written.
    pub confirmed: usize,
    /// How many corner changes were written.
    pub corners: usize,
    /// The map from now on.
    pub map: Map,
}

/// How long a list is.
#[repr(C)]
#[derive(Clone, Copy, Debug, PartialEq, Eq)]
pub struct Count {
    /// 0, or why not.
    pub refusal: u8,
    /// How many were written.
    pub count: usize,
}

/// Yes or no.
#[repr(C)]
#[derive(Clone, Copy, Debug, PartialEq, Eq)]
pub struct Told {
    /// 0, or why not.
    pub refusal: u8,
    /// The answer.
    pub yes: bool,
}

/// A cell, or none.
#[repr(C)]
#[derive(Clone, Copy, Debug, PartialEq, Eq)]
pub struct Found {
    /// 0, or why not.
    pub refusal: u8,
    /// Whether there is one.
    pub some: bool,
    /// The cell.
    pub cell: Cell,
}

/// Declares functions of the library, a slice being a pointer and a length, and for each a safe
/// function of that name that takes slices.
///
/// SAFETY: every pointer is of a slice of the length that is passed with it, and Rust's own rules
/// see to it that no slice which is written overlaps another. The functions keep nothing, and are
/// proved to stay within the slices.
macro_rules! library {
    ($($(#[$doc:meta])* fn $name:ident($($arg:ident: $kind:tt $type:ty),* $(,)?) -> $result:ty;)*) => {
        mod declared {
            use super::*;
            $(library!(@declare $name [] [$($arg: $kind $type,)*] $result);)*
        }
        $($(#[$doc])*
        #[allow(clippy::too_many_arguments)]
        pub fn $name($($arg: library!(@safe $kind $type)),*) -> $result {
            library!(@call $name [] [$($arg: $kind,)*])
        })*
    };
    (@safe plain $type:ty) => { $type };
    (@safe read $type:ty) => { &[$type] };
    (@safe write $type:ty) => { &mut [$type] };
    (@declare $name:ident [$($done:tt)*] [] $result:ty) => {
        unsafe extern "C" { pub fn $name($($done)*) -> $result; }
    };
    (@declare $name:ident [$($done:tt)*] [$arg:ident: plain $type:ty, $($rest:tt)*] $result:ty) => {
        library!(@declare $name [$($done)* $arg: $type,] [$($rest)*] $result);
    };
    (@declare $name:ident [$($done:tt)*] [$arg:ident: read $type:ty, $($rest:tt)*] $result:ty) => {
        library!(@declare $name [$($done)* $arg: *const $type, _: usize,] [$($rest)*] $result);
    };
    (@declare $name:ident [$($done:tt)*] [$arg:ident: write $type:ty, $($rest:tt)*] $result:ty) => {
        library!(@declare $name [$($done)* $arg: *mut $type, _: usize,] [$($rest)*] $result);
    };
    (@call $name:ident [$($done:tt)*] []) => { unsafe { declared::$name($($done)*) } };
    (@call $name:ident [$($done:tt)*] [$arg:ident: plain, $($rest:tt)*]) => {
        library!(@call $name [$($done)* $arg,] [$($rest)*])
    };
    (@call $name:ident [$($done:tt)*] [$arg:ident: read, $($rest:tt)*]) => {
        library!(@call $name [$($done)* $arg.as_ptr(), $arg.len(),] [$($rest)*])
    };
    (@call $name:ident [$($done:tt)*] [$arg:ident: write, $($rest:tt)*]) => {
        library!(@call $name [$($done)* $arg.as_mut_ptr(), $arg.len(),] [$($rest)*])
    };
}

library! {
    /// Opens a map on which every cell is free, and writes all five tables. Refuses with 9, 1, 2.
    fn runcedau_open(size: plain f64, radius: plain f64, cells: write u64, points: write u64,
        statuses: write u8, blockers: write u64, pairs: write u64) -> Outcome;
    /// Reads a map file, and writes all five tables. Refuses with 9, and as RULES 5.2 has it.
    fn runcedau_lent_read(bytes: read u8, cells: write u64, points: write u64, statuses: write u8,
        blockers: write u64, pairs: write u64) -> Opened;
    /// Applies a batch, three numbers an entry: x, y, and 0 for free or any other for occupied;
    /// cells ascending by x, then y. Refuses with 9, 1 to 7, a batch that is no whole entries
    /// with 4.
    fn runcedau_change_cells(map: plain Map, cells: write u64, points: write u64,
        statuses: write u8, blockers: write u64, pairs: write u64, batch: read i64,
        confirmed: write u64, full: write u8, corners: write u64, altered: write u8) -> Changed;
    /// Sets the radius, and finds points, pairs and blockers anew. Refuses with 9, 1, 2, 6, 7.
    fn runcedau_change_radius(map: plain Map, cells: read u64, points: write u64,
        statuses: write u8, blockers: write u64, pairs: write u64, radius: plain f64) -> Outcome;
    /// Whether a cell is occupied. Refuses with 9, 1, 2, 6, 7.
    fn runcedau_is_occupied(map: plain Map, cells: read u64, cell: plain Cell) -> Told;
    /// The first occupied cell that a shape takes: 0 a point p, 1 a square about p of width
    /// `extent`, 2 a circle about p of radius `extent`, 3 a sweep from p to q of width `extent`.
    /// Refuses with 9, 1, 2, 6, 7, 8.
    fn runcedau_ask(map: plain Map, cells: read u64, shape: plain u8, p: plain Point,
        q: plain Point, extent: plain f64) -> Found;
    /// The occupied cells. Refuses with 9, 1, 2, 6, 7, as all lists do.
    fn runcedau_occupied_cells(map: plain Map, cells: read u64, out: write u64) -> Count;
    /// The occupied cells that have a corner, and their statuses.
    fn runcedau_corner_cells(map: plain Map, cells: read u64, out: write u64,
        statuses: write u8) -> Count;
    /// The points, their statuses and blockers.
    fn runcedau_all_points(map: plain Map, points: read u64, statuses: read u8,
        blockers: read u64, out: write u64, bits: write u8, blocks: write u64) -> Count;
    /// The points without blocker.
    fn runcedau_free_points(map: plain Map, points: read u64, blockers: read u64,
        out: write u64) -> Count;
    /// The pairs and their blockers.
    fn runcedau_all_pairs(map: plain Map, points: read u64, pairs: read u64,
        lesser: write u64, greater: write u64, blocks: write u64) -> Count;
    /// The pairs that have no blocker, nor have their points.
    fn runcedau_open_pairs(map: plain Map, points: read u64, blockers: read u64,
        pairs: read u64, lesser: write u64, greater: write u64) -> Count;
    /// The points in sight of a cell. Refuses with 5 too.
    fn runcedau_visibility(map: plain Map, cells: read u64, points: read u64,
        statuses: read u8, blockers: read u64, pairs: read u64, cell: plain Cell,
        out: write u64) -> Count;
    /// The cells beside a cell that can be reached. Refuses with 5 too.
    fn runcedau_neighbours(map: plain Map, cells: read u64, cell: plain Cell,
        out: write u64) -> Count;
    /// The listing of a map (RULES 6.1), 166,656 bytes at most.
    fn runcedau_lent_list(map: plain Map, cells: read u64, points: read u64, statuses: read u8,
        blockers: read u64, pairs: read u64, out: write u8) -> Count;
    /// The listing of a map file, `refused N at F` of one that is refused. Refuses with 9 alone.
    fn runcedau_list_file(bytes: read u8, out: write u8) -> Count;
    /// How many cells out from its corner a point lies.
    fn runcedau_shift(size: plain f64, radius: plain f64) -> i64;
    /// The cell that a place is in.
    fn runcedau_cell_of(size: plain f64, p: plain Point) -> Cell;
    /// The cell of a key.
    fn runcedau_cell_of_key(key: plain u64) -> Cell;
    /// The key of a cell. A coordinate beyond -2^31 or 2^31 - 1 is brought to the nearer end.
    fn runcedau_key_of_cell(cell: plain Cell) -> u64;
    /// The centre of a cell.
    fn runcedau_centre(size: plain f64, cell: plain Cell) -> Point;
    /// The corner of a cell with the least x and y.
    fn runcedau_bottom_left(size: plain f64, cell: plain Cell) -> Point;
    /// How far a place is from a segment.
    fn runcedau_distance(s: plain Segment, p: plain Point) -> f64;
    /// Where a segment meets the vertical line at x.
    fn runcedau_vertical(s: plain Segment, x: plain f64) -> Crossings;
    /// Where a segment meets the horizontal line at y.
    fn runcedau_horizontal(s: plain Segment, y: plain f64) -> Crossings;
    /// The near test (RULES 1.11). A cell beyond -2^31 or 2^31 - 1 is brought to the nearer end.
    fn runcedau_near(s: plain Segment, cell: plain Cell, size: plain f64, radius: plain f64)
        -> bool;
    /// The largest whole number that is not above x.
    fn runcedau_floor_to_i64(x: plain f64) -> i64;
    /// The least whole number that is not below x.
    fn runcedau_ceil_to_i64(x: plain f64) -> i64;
    /// x without its sign.
    fn runcedau_abs(x: plain f64) -> f64;
    /// The square root, correctly rounded.
    fn runcedau_root(x: plain f64) -> f64;
    /// The near test of many cells, given by keys: a 1 in `near` for yes, a 0 for no. False, and
    /// nothing is written, where `near` is shorter than `cells`.
    fn runcedau_near_cells(s: plain Segment, size: plain f64, radius: plain f64, cells: read u64,
        near: write u8) -> bool;
    /// The least value whose root is at least x.
    fn runcedau_root_threshold(x: plain f64) -> f64;
    /// The whole part of x.
    fn runcedau_cut_to_i64(x: plain f64) -> i64;
    /// The largest whole number that is not above x, as a key holds a column: 2^31 more, brought
    /// to 0 .. 2^32 - 1.
    fn runcedau_column_of(x: plain f64) -> u64;
    /// The least whole number that is not below x, as a key holds a column.
    fn runcedau_column_up(x: plain f64) -> u64;
    /// The lesser of two; of a NaN and a number the number.
    fn runcedau_min(a: plain f64, b: plain f64) -> f64;
    /// The greater of two; of a NaN and a number the number.
    fn runcedau_max(a: plain f64, b: plain f64) -> f64;
}
