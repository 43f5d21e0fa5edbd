//! The questions by their names. Each reads its words, and then asks. The answer is without the
//! name; none where there is no such question here, or its words cannot be read.
use super::answers::{
    bytes, cells, changes, ends, floats, marked, named, numbered, pairs, points, refused_at, yes,
};
use super::words::Words;
use super::Console;
use crate::geometry::{abs, ceil, cell_shift, floor, sqrt};
use crate::{Cell, Map, Refusal};

/// Asks the map once the line is read to its end, so that a line which cannot be read asks nothing.
fn of_map(
    console: &mut Console,
    words: &mut Words,
    ask: impl FnOnce(&mut Map) -> Result<String, Refusal>,
) -> Option<String> {
    words.end()?;
    Some(numbered(console.map().and_then(ask)))
}

/// After a refused opening there is no map.
fn open(console: &mut Console, size: f64, radius: f64) -> Result<String, Refusal> {
    console.map = None;
    console.map = Some(Map::new(size, radius)?);
    Ok(String::new())
}

/// A refused file leaves the map as it was.
fn read(console: &mut Console, file: &[u8]) -> String {
    match Map::read(file) {
        Ok(map) => {
            console.map = Some(map);
            numbered(Ok(String::new()))
        }
        Err(refused) => refused_at(refused),
    }
}

/// What gives a map or alters it.
pub fn changed(console: &mut Console, name: &str, words: &mut Words) -> Option<String> {
    match name {
        "open" => {
            let (size, radius) = (words.float()?, words.float()?);
            words.end()?;
            Some(numbered(open(console, size, radius)))
        }
        "read" => {
            let file = words.bytes()?;
            words.end()?;
            Some(read(console, &file))
        }
        "batch" => {
            let batch = words.batch()?;
            of_map(console, words, |map| map.change_cells(&batch).map(changes))
        }
        "radius" => {
            let radius = words.float()?;
            let done = |()| String::new();
            of_map(console, words, |map| {
                map.change_agent_radius(radius).map(done)
            })
        }
        _ => None,
    }
}

/// All that a map has.
pub fn listed(console: &mut Console, name: &str, words: &mut Words) -> Option<String> {
    let list: fn(&Map) -> Result<String, Refusal> = match name {
        "write" => |map| map.write().map(|file| bytes(&file)),
        "cells" => |map| Ok(cells(map.occupied_cells())),
        "corners" => |map| Ok(marked(map.corners())),
        "points" => |map| Ok(points(map.points())),
        "pairs" => |map| Ok(pairs(map.pairs())),
        "openpairs" => |map| Ok(ends(map.iter_edges())),
        _ => return None,
    };
    of_map(console, words, |map| list(map))
}

/// What is about a cell of a map.
pub fn about_a_cell(console: &mut Console, name: &str, words: &mut Words) -> Option<String> {
    let ask: fn(&Map, Cell) -> Result<String, Refusal> = match name {
        "occupied" => |map, cell| Ok(yes(map.is_occupied(cell))),
        "visibility" => |map, cell| map.calculate_visibility(cell).map(cells),
        "neighbours" => |map, cell| map.neighbors(cell).map(cells),
        _ => return None,
    };
    let cell = words.cell()?;
    of_map(console, words, |map| ask(map, cell))
}

/// What is about a place of a map.
pub fn about_a_place(console: &mut Console, name: &str, words: &mut Words) -> Option<String> {
    let p = words.point()?;
    match name {
        "point" => of_map(console, words, |map| map.is_point_occupied(p).map(named)),
        "square" => {
            let width = words.float()?;
            of_map(console, words, |map| {
                map.is_square_occupied(p, width).map(named)
            })
        }
        "circle" => {
            let radius = words.float()?;
            of_map(console, words, |map| {
                map.is_circle_occupied(p, radius).map(named)
            })
        }
        "sweep" => {
            let (q, width) = (words.point()?, words.float()?);
            of_map(console, words, |map| {
                map.is_sweep_occupied(p, q, width).map(named)
            })
        }
        _ => None,
    }
}

/// What is about no map.
pub fn of_no_map(_: &mut Console, name: &str, words: &mut Words) -> Option<String> {
    Some(match name {
        "floor" => floor(words.float()?).to_string(),
        "ceil" => ceil(words.float()?).to_string(),
        "abs" => floats([abs(words.float()?)]),
        "sqrt" => floats([sqrt(words.float()?)]),
        "shift" => cell_shift(words.float()?, words.float()?).to_string(),
        "cellof" => {
            let size = words.float()?;
            Cell::from_point(words.point()?, size).to_string()
        }
        "centre" | "bottomleft" => {
            let (size, cell) = (words.float()?, words.cell()?);
            let p = match name {
                "centre" => cell.center_point(size),
                _ => cell.bottom_left_point(size),
            };
            floats([p.x, p.y])
        }
        "distance" => floats([words.segment()?.distance_from_point(words.point()?)]),
        "vertical" => floats(words.segment()?.vertical_intersect(words.float()?)),
        "horizontal" => floats(words.segment()?.horizontal_intersect(words.float()?)),
        "near" => {
            let (size, radius, segment) = (words.float()?, words.float()?, words.segment()?);
            yes(segment.passes_near_cell(words.cell()?, size, radius))
        }
        _ => return None,
    })
}
