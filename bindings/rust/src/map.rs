//! A map: its tables, what alters it, and what may be asked of it.
use crate::cell::{blocker_of, cells_of};
use crate::{ffi, Cell, Changes, Pair, Point, Refusal, VisiblePoint};
use std::fmt;

const CELLS: usize = 1024;
const POINTS: usize = 64;
const PAIRS: usize = POINTS * POINTS;
const LISTED: usize = POINTS * (POINTS - 1) / 2;
const CHANGES: usize = 256;
const CORNERS: usize = 9 * CHANGES;

#[derive(Clone)]
pub(crate) struct Tables {
    pub cells: [u64; CELLS],
    pub points: [u64; POINTS],
    pub statuses: [u8; POINTS],
    pub blockers: [u64; POINTS],
    pub pairs: [u64; PAIRS],
}

impl Tables {
    pub fn zeros() -> Box<Self> {
        Box::new(Tables {
            cells: [0; CELLS],
            points: [0; POINTS],
            statuses: [0; POINTS],
            blockers: [0; POINTS],
            pairs: [0; PAIRS],
        })
    }
}

/// A floor: which cells are occupied, at which points a cart can turn round a corner, and which of
/// these see each other.
///
/// A map owns its tables (about 42,000 bytes); a clone is a map of its own. A call that is refused
/// answers why, and leaves the map as it was.
///
/// ```
/// use runcedau::{Cell, Map};
///
/// let mut map = Map::new(256.0, 128.0)?;
/// map.change_cells(&[(Cell::new(0, 0), true)])?;
/// assert_eq!(map.occupied_cells(), [Cell::new(0, 0)]);
/// assert_eq!(map.points().len(), 4);
/// # Ok::<(), runcedau::Refusal>(())
/// ```
#[derive(Clone)]
pub struct Map {
    pub(crate) map: ffi::Map,
    pub(crate) tables: Box<Tables>,
}

/// Counts, not tables.
impl fmt::Debug for Map {
    fn fmt(&self, f: &mut fmt::Formatter) -> fmt::Result {
        f.debug_struct("Map")
            .field("cell_size", &self.map.size)
            .field("agent_radius", &self.map.radius)
            .field("cells", &self.map.cells)
            .field("points", &self.map.points)
            .finish_non_exhaustive()
    }
}

/// Opening, and what alters a map.
impl Map {
    /// A map on which every cell is free.
    ///
    /// # Errors
    ///
    /// [`Refusal::CellSize`] if the cell size is not a number from 1/1,024 to 65,536, else
    /// [`Refusal::Radius`] if the radius is not a number from 0 to 63.5 times the cell size.
    pub fn new(cell_size: f64, agent_radius: f64) -> Result<Self, Refusal> {
        let mut tables = Tables::zeros();
        let t = &mut *tables;
        let opened = ffi::runcedau_open(
            cell_size,
            agent_radius,
            &mut t.cells,
            &mut t.points,
            &mut t.statuses,
            &mut t.blockers,
            &mut t.pairs,
        );
        Refusal::check(opened.refusal)?;
        Ok(Map {
            map: opened.map,
            tables,
        })
    }

    /// Applies a batch: at most 256 cells, ascending by x, then y, each with whether it is to be
    /// occupied. All of it is applied, or nothing.
    ///
    /// # Errors
    ///
    /// The first of these that holds, and then the map is as it was:
    /// [`Refusal::BatchLength`] of more than 256 entries; [`Refusal::BatchOrder`] of cells that do
    /// not ascend, or a cell named twice; [`Refusal::Coordinate`] of a cell beyond 1,048,576;
    /// [`Refusal::TooManyCells`] if more than 1,024 would be occupied; [`Refusal::TooManyPoints`]
    /// if there would be more than 64 points.
    ///
    /// ```
    /// use runcedau::{Cell, Map, Refusal};
    ///
    /// let mut map = Map::new(256.0, 128.0)?;
    /// let rack: Vec<(Cell, bool)> = (0..8).map(|y| (Cell::new(0, y), true)).collect();
    /// assert_eq!(map.change_cells(&rack)?.confirmed, rack);
    ///
    /// let twice = [((9, 9).into(), true), ((9, 9).into(), false)];
    /// assert_eq!(map.change_cells(&twice), Err(Refusal::BatchOrder));
    /// assert_eq!(map.occupied_cells().len(), 8);
    /// # Ok::<(), Refusal>(())
    /// ```
    pub fn change_cells(&mut self, changes: &[(Cell, bool)]) -> Result<Changes, Refusal> {
        let entry = |(cell, occupied): &(Cell, bool)| [cell.x, cell.y, *occupied as i64];
        let batch: Vec<i64> = changes.iter().flat_map(entry).collect();
        let (mut confirmed, mut full) = ([0; CHANGES], [0; CHANGES]);
        let (mut corners, mut altered) = ([0; CORNERS], [0; CORNERS]);
        let t = &mut *self.tables;
        let changed = ffi::runcedau_change_cells(
            self.map,
            &mut t.cells,
            &mut t.points,
            &mut t.statuses,
            &mut t.blockers,
            &mut t.pairs,
            &batch,
            &mut confirmed,
            &mut full,
            &mut corners,
            &mut altered,
        );
        self.keep(changed.refusal, changed.map)?;
        let confirmed = cells_of(&confirmed[..changed.confirmed]).into_iter();
        let corners = cells_of(&corners[..changed.corners]).into_iter();
        Ok(Changes {
            confirmed: confirmed.zip(full.map(|byte| byte != 0)).collect(),
            corners: corners.zip(altered).collect(),
        })
    }

    /// Sets the radius of a cart, and finds points, pairs and blockers anew. Setting the same
    /// radius is a change too: blockers that tell of the past are told afresh (RULES 7.3).
    ///
    /// # Errors
    ///
    /// [`Refusal::Radius`] if it is not a number from 0 to 63.5 times the cell size, else
    /// [`Refusal::TooManyPoints`] if there would be more than 64 points. The map is as it was then.
    pub fn change_agent_radius(&mut self, radius: f64) -> Result<(), Refusal> {
        let t = &mut *self.tables;
        let changed = ffi::runcedau_change_radius(
            self.map,
            &t.cells,
            &mut t.points,
            &mut t.statuses,
            &mut t.blockers,
            &mut t.pairs,
            radius,
        );
        self.keep(changed.refusal, changed.map)
    }

    /// The struct that a call gave is the map where the call was accepted, and only there.
    fn keep(&mut self, refusal: u8, map: ffi::Map) -> Result<(), Refusal> {
        Refusal::check(refusal)?;
        self.map = map;
        Ok(())
    }

    /// The cell size that the map was opened with.
    pub fn cell_size(&self) -> f64 {
        self.map.size
    }

    /// The radius of a cart, as it was last set.
    pub fn agent_radius(&self) -> f64 {
        self.map.radius
    }
}

/// The shapes by their numbers at the border, which refuses any other.
#[derive(Clone, Copy)]
#[repr(u8)]
enum Shape {
    Point = 0,
    Square = 1,
    Circle = 2,
    Sweep = 3,
}

/// Of what no map of this crate is refused, since calls gave it and there is room: better no answer
/// than that of a refused call.
fn sure(refusal: u8) {
    assert_eq!(Refusal::check(refusal), Ok(()), "of a map's own tables");
}

pub(crate) fn count_of(listed: ffi::Count) -> usize {
    sure(listed.refusal);
    listed.count
}

/// What may be asked about cells. Each test answers the first occupied cell, by x, then y, that
/// qualifies, or none (RULES 1.10).
impl Map {
    /// Whether a cell is occupied; of any two numbers.
    pub fn is_occupied(&self, cell: Cell) -> bool {
        let told = ffi::runcedau_is_occupied(self.map, &self.tables.cells, cell);
        sure(told.refusal);
        told.yes
    }

    fn ask(&self, shape: Shape, p: Point, q: Point, extent: f64) -> Result<Option<Cell>, Refusal> {
        let found = ffi::runcedau_ask(self.map, &self.tables.cells, shape as u8, p, q, extent);
        Refusal::check(found.refusal)?;
        Ok(found.some.then_some(found.cell))
    }

    /// The occupied cell that the place is in.
    ///
    /// # Errors
    ///
    /// [`Refusal::QueryNumber`] if a number is not finite or beyond 2^40.
    pub fn is_point_occupied(&self, p: Point) -> Result<Option<Cell>, Refusal> {
        self.ask(Shape::Point, p, p, 0.0)
    }

    /// The first occupied cell that a square about the place takes.
    ///
    /// # Errors
    ///
    /// [`Refusal::QueryNumber`] if a number is not finite or beyond 2^40, or the width below 0.
    pub fn is_square_occupied(&self, p: Point, width: f64) -> Result<Option<Cell>, Refusal> {
        self.ask(Shape::Square, p, p, width)
    }

    /// The first occupied cell that a circle about the place takes. A small circle inside an
    /// occupied cell, near its corner, may count as free: ask [`Map::is_point_occupied`] too.
    ///
    /// # Errors
    ///
    /// [`Refusal::QueryNumber`] if a number is not finite or beyond 2^40, or the radius below 0.
    pub fn is_circle_occupied(&self, p: Point, radius: f64) -> Result<Option<Cell>, Refusal> {
        self.ask(Shape::Circle, p, p, radius)
    }

    /// The first occupied cell that a rectangle takes which ends at both places, half the width to
    /// each side. Places nearer than 1e-8 to each other make it the point test of the first.
    ///
    /// # Errors
    ///
    /// [`Refusal::QueryNumber`] if a number is not finite or beyond 2^40, or the width below 0.
    pub fn is_sweep_occupied(
        &self,
        p: Point,
        q: Point,
        width: f64,
    ) -> Result<Option<Cell>, Refusal> {
        self.ask(Shape::Sweep, p, q, width)
    }

    /// All occupied cells, ascending.
    pub fn occupied_cells(&self) -> Vec<Cell> {
        let mut out = [0; CELLS];
        let listed = ffi::runcedau_occupied_cells(self.map, &self.tables.cells, &mut out);
        cells_of(&out[..count_of(listed)])
    }

    /// The occupied cells that have a corner, ascending, each with its status: southwest 1,
    /// southeast 2, northwest 4, northeast 8, summed.
    pub fn corners(&self) -> Vec<(Cell, u8)> {
        let (mut out, mut statuses) = ([0; CELLS], [0; CELLS]);
        let listed =
            ffi::runcedau_corner_cells(self.map, &self.tables.cells, &mut out, &mut statuses);
        cells_of(&out[..count_of(listed)])
            .into_iter()
            .zip(statuses)
            .collect()
    }
}

/// What may be asked about points and pairs. Every list ascends, but for the neighbors'.
impl Map {
    /// All points, blocked ones too.
    pub fn points(&self) -> Vec<VisiblePoint> {
        let t = &*self.tables;
        let (mut out, mut bits, mut blocks) = ([0; POINTS], [0; POINTS], [0; POINTS]);
        let listed = ffi::runcedau_all_points(
            self.map,
            &t.points,
            &t.statuses,
            &t.blockers,
            &mut out,
            &mut bits,
            &mut blocks,
        );
        let point = |i: usize| VisiblePoint {
            cell: Cell::of_key(out[i]),
            status: bits[i],
            blocker: blocker_of(blocks[i]),
        };
        (0..count_of(listed)).map(point).collect()
    }

    /// The points that nothing blocks.
    pub fn iter_points(&self) -> impl Iterator<Item = Cell> {
        let mut out = [0; POINTS];
        let listed = ffi::runcedau_free_points(
            self.map,
            &self.tables.points,
            &self.tables.blockers,
            &mut out,
        );
        cells_of(&out[..count_of(listed)]).into_iter()
    }

    /// All pairs, blocked ones too, by the lesser cell, then the greater.
    ///
    /// ```
    /// use runcedau::{Cell, Map};
    ///
    /// let mut map = Map::new(256.0, 128.0)?;
    /// map.change_cells(&[(Cell::new(0, 0), true)])?;
    /// let pairs = map.pairs();
    /// assert_eq!(pairs.len(), 4);
    /// assert_eq!(pairs[0].to_string(), "-1,-1 to -1,1, no blocker");
    /// # Ok::<(), runcedau::Refusal>(())
    /// ```
    pub fn pairs(&self) -> Vec<Pair> {
        let t = &*self.tables;
        let (mut lesser, mut greater, mut blocks) = ([0; LISTED], [0; LISTED], [0; LISTED]);
        let listed = ffi::runcedau_all_pairs(
            self.map,
            &t.points,
            &t.pairs,
            &mut lesser,
            &mut greater,
            &mut blocks,
        );
        let pair = |i: usize| Pair {
            lesser: Cell::of_key(lesser[i]),
            greater: Cell::of_key(greater[i]),
            blocker: blocker_of(blocks[i]),
        };
        (0..count_of(listed)).map(pair).collect()
    }

    /// The open pairs: those that nothing blocks, nor either of their ends.
    pub fn iter_edges(&self) -> impl Iterator<Item = (Cell, Cell)> {
        let t = &*self.tables;
        let (mut lesser, mut greater) = ([0; LISTED], [0; LISTED]);
        let listed = ffi::runcedau_open_pairs(
            self.map,
            &t.points,
            &t.blockers,
            &t.pairs,
            &mut lesser,
            &mut greater,
        );
        let count = count_of(listed);
        let ends = cells_of(&lesser[..count]).into_iter();
        ends.zip(cells_of(&greater[..count]))
    }

    /// The points in sight of a cell (RULES 2.5).
    ///
    /// # Errors
    ///
    /// [`Refusal::Coordinate`] of a cell beyond 1,048,640.
    ///
    /// ```
    /// use runcedau::{Cell, Map, Refusal};
    ///
    /// let mut map = Map::new(256.0, 128.0)?;
    /// map.change_cells(&[(Cell::new(0, 0), true)])?;
    /// let seen = map.calculate_visibility(Cell::new(0, 5))?;
    /// assert_eq!(seen, [Cell::new(-1, 1), Cell::new(1, 1)]);
    ///
    /// let far = Cell::new(2_000_000, 0);
    /// assert_eq!(map.calculate_visibility(far), Err(Refusal::Coordinate));
    /// # Ok::<(), Refusal>(())
    /// ```
    pub fn calculate_visibility(&self, cell: Cell) -> Result<Vec<Cell>, Refusal> {
        let (t, mut out) = (&*self.tables, [0; POINTS]);
        let listed = ffi::runcedau_visibility(
            self.map,
            &t.cells,
            &t.points,
            &t.statuses,
            &t.blockers,
            &t.pairs,
            cell,
            &mut out,
        );
        Refusal::check(listed.refusal)?;
        Ok(cells_of(&out[..listed.count]))
    }

    /// The cells beside a cell that a cart can reach from there, in the order of the eight
    /// directions (RULES 2.5).
    ///
    /// # Errors
    ///
    /// [`Refusal::Coordinate`] of a cell beyond 1,048,640.
    pub fn neighbors(&self, cell: Cell) -> Result<Vec<Cell>, Refusal> {
        let mut out = [0; POINTS];
        let listed = ffi::runcedau_neighbours(self.map, &self.tables.cells, cell, &mut out);
        Refusal::check(listed.refusal)?;
        Ok(cells_of(&out[..listed.count]))
    }
}

#[cfg(test)]
mod tests {
    use super::*;

    /// Of tables that no call has written yet.
    fn held(cells: usize) -> Map {
        let map = ffi::Map {
            cells,
            ..ffi::Map::default()
        };
        Map {
            map,
            tables: Tables::zeros(),
        }
    }

    #[test]
    fn a_refused_call_leaves_the_map_whatever_its_number() {
        for number in 1..=u8::MAX {
            let mut map = held(3);
            assert!(map.keep(number, ffi::Map::default()).is_err());
            assert_eq!(map.map.cells, 3);
        }
    }

    #[test]
    fn an_accepted_call_gives_the_map() {
        let mut map = held(3);
        assert_eq!(map.keep(0, held(4).map), Ok(()));
        assert_eq!(map.map.cells, 4);
    }
}
