//! Cells in batches, each of which the library accepts: a map of some cells, and its map file.
use super::fields::{field, occupying, CELL_SIZE, END, ENTRIES, RADIUS};
use crate::{Cell, Map, Refusal};
use std::collections::{BTreeMap, BTreeSet};

/// The bytes of a file that reads back to the same cells.
pub fn written(map: &Map) -> Result<Vec<u8>, Refusal> {
    let mut file = field(CELL_SIZE, &map.cell_size().to_be_bytes());
    file.extend(field(RADIUS, &map.agent_radius().to_be_bytes()));
    let cells = map.occupied_cells();
    let (working, batches) = parted(map.cell_size(), map.agent_radius(), &cells)?;
    assert_eq!(working.occupied_cells(), cells, "what is written");
    for batch in batches {
        file.extend(occupying(&batch));
    }
    file.extend(field(END, &[]));
    Ok(file)
}

/// A map of ascending cells, and the batches that it was made of, each accepted by the library on
/// the map so far. A part of the cells may have more points than all of them.
pub fn parted(
    cell_size: f64,
    radius: f64,
    cells: &[Cell],
) -> Result<(Map, Vec<Vec<Cell>>), Refusal> {
    let mut working = Map::new(cell_size, radius)?;
    let mut orders = orders(cells);
    let mut batches = Vec::new();
    while !orders[0].is_empty() {
        let batch = longest(&mut working, &orders)?;
        for order in &mut orders {
            order.retain(|cell| batch.binary_search(cell).is_err());
        }
        batches.push(batch);
    }
    Ok((working, batches))
}

/// Takes the most cells that one of the orders begins with and the library accepts. Only too many
/// points may be mended by another choice.
fn longest(working: &mut Map, orders: &[Vec<Cell>]) -> Result<Vec<Cell>, Refusal> {
    let left = orders.iter().map(Vec::len).max().unwrap_or(0);
    for length in (1..=left.min(ENTRIES)).rev() {
        for order in orders {
            let mut batch = order[..length].to_vec();
            batch.sort();
            let entries: Vec<(Cell, bool)> = batch.iter().map(|cell| (*cell, true)).collect();
            match working.change_cells(&entries) {
                Ok(_) => return Ok(batch),
                Err(Refusal::TooManyPoints) => {}
                Err(refusal) => return Err(refusal),
            }
        }
    }
    Err(Refusal::TooManyPoints)
}

/// The orders that are tried, as what a cell is sorted by: columns and rows, both ways, the same
/// block by block, and both diagonals.
fn ranks(Cell { x, y }: Cell, block: i64) -> [(i64, i64, i64); 8] {
    [
        (0, x, y),
        (0, y, x),
        (0, -x, -y),
        (0, -y, -x),
        (block, x, y),
        (block, y, x),
        (0, x + y, x),
        (0, x - y, x),
    ]
}

/// The cells in each of the orders.
fn orders(cells: &[Cell]) -> [Vec<Cell>; 8] {
    let block = blocks(cells);
    std::array::from_fn(|n| {
        let mut order = cells.to_vec();
        order.sort_by_key(|cell| ranks(*cell, block[cell])[n]);
        order
    })
}

/// For each cell the number of its block: of the cells that are joined to it through sides.
fn blocks(cells: &[Cell]) -> BTreeMap<Cell, i64> {
    let mut left: BTreeSet<Cell> = cells.iter().copied().collect();
    let mut numbered = BTreeMap::new();
    for number in 0.. {
        let Some(first) = left.pop_first() else { break };
        let mut found = vec![first];
        while let Some(cell) = found.pop() {
            let Cell { x, y } = cell;
            let beside = [(x - 1, y), (x + 1, y), (x, y - 1), (x, y + 1)].map(Cell::from);
            found.extend(beside.into_iter().filter(|cell| left.remove(cell)));
            numbered.insert(cell, number);
        }
    }
    numbered
}

#[cfg(test)]
mod tests {
    use super::*;

    /// Two full columns, and between them nine cells in every third row.
    fn comb() -> Vec<Cell> {
        let cells = (0..11).flat_map(|x| (0..97).map(move |y| Cell::new(x, y)));
        cells.filter(|c| c.x % 10 == 0 || c.y % 3 == 0).collect()
    }

    #[test]
    fn an_order_that_ends_inside_the_comb_is_refused_with_7() {
        let mut working = Map::new(256.0, 128.0).unwrap();
        let mut order = comb();
        while let Ok(batch) = longest(&mut working, &[order.clone()]) {
            order.retain(|cell| batch.binary_search(cell).is_err());
        }
        let before = working.occupied_cells();
        let refused = longest(&mut working, &[order]);
        assert_eq!(refused, Err(Refusal::TooManyPoints));
        assert_eq!(working.occupied_cells(), before);
        assert!(before.len() < comb().len());
    }

    #[test]
    fn every_order_has_every_cell() {
        for mut order in orders(&comb()) {
            order.sort();
            assert_eq!(order, comb());
        }
    }

    #[test]
    fn cells_that_touch_at_a_corner_are_two_blocks() {
        let numbered = blocks(&[(0, 0), (0, 1), (1, 1), (2, 2)].map(Cell::from));
        assert_eq!(numbered.into_values().collect::<Vec<_>>(), [0, 0, 0, 1]);
    }
}
