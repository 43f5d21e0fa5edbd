//! Floor maps for warehouses, with sight lines that never lag behind the map: safe Rust over the
//! proved library, which `bindings/build` makes.
//!
//! A [`Map`] has the occupied cells of a floor, the points where a cart can turn round a corner,
//! and the pairs of points that see each other. It is changed by batches of cells
//! ([`Map::change_cells`]), read from a map file ([`Map::read`]) and written to one
//! ([`Map::write`]). A call that is refused answers why ([`Refusal`]), and has altered nothing.
//!
//! ```
//! use runcedau::{Cell, Map, Refusal};
//!
//! let mut map = Map::new(256.0, 128.0)?; // cell size, radius of a cart
//! let racks: Vec<(Cell, bool)> = (0..16)
//!     .map(|i| ((i / 8 * 4, i % 8).into(), true))
//!     .collect();
//! map.change_cells(&racks)?;
//! let seen = map.calculate_visibility(Cell::new(2, -1))?;
//! assert_eq!(seen.len(), 6);
//!
//! map.change_cells(&[1, 2, 3].map(|x| (Cell::new(x, 3), true)))?; // the aisle is closed
//! let seen = map.calculate_visibility(Cell::new(2, -1))?;
//! assert_eq!(seen.len(), 4);
//! # Ok::<(), Refusal>(())
//! ```
//!
//! Methods are named as in open-rmf/mapf; what the Rust there gives as an iterator is a `Vec` here.
//! `docs/RULES.md` of the project has the rules and the words; 'RULES 7.3' is a section of it.
#![deny(missing_docs)]
#![warn(missing_debug_implementations)]

mod cell;
pub mod console;
pub mod ffi;
mod file;
pub mod geometry;
mod map;
mod refusal;
mod told;

pub use cell::Cell;
pub use file::listing;
pub use geometry::{Point, Segment};
pub use map::Map;
pub use refusal::{FileRefusal, Refusal};
pub use told::{Changes, Pair, VisiblePoint};
