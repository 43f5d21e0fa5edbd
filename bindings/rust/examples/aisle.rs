//! Two racks with an aisle between them; the aisle is closed, and what is in sight of its mouth is
//! told before and after.
use runcedau::{Cell, Map, Refusal};

fn tell_sight(map: &Map, cell: Cell) -> Result<(), Refusal> {
    let seen: Vec<String> = map
        .calculate_visibility(cell)?
        .iter()
        .map(Cell::to_string)
        .collect();
    println!("from {cell}: {}", seen.join(" "));
    Ok(())
}

fn main() -> Result<(), Refusal> {
    let mut map = Map::new(256.0, 128.0)?;
    let racks: Vec<(Cell, bool)> = (0..16)
        .map(|i| (Cell::new(i / 8 * 4, i % 8), true))
        .collect();
    let changes = map.change_cells(&racks)?;
    println!(
        "racks: {} cells, {} points, {} corners altered",
        map.occupied_cells().len(),
        map.points().len(),
        changes.corners.len()
    );
    let mouth = Cell::new(2, -1);
    tell_sight(&map, mouth)?;
    map.change_cells(&[1, 2, 3].map(|x| (Cell::new(x, 3), true)))?;
    println!(
        "closed: {} cells, {} points",
        map.occupied_cells().len(),
        map.points().len()
    );
    tell_sight(&map, mouth)?;
    let twice = [(Cell::new(9, 9), true), (Cell::new(9, 9), false)];
    if let Err(refusal) = map.change_cells(&twice) {
        println!("refused with {}: {refusal}", refusal.number());
    }
    let middle = Cell::new(2, 3).center_point(map.cell_size());
    println!("{:?}", map.is_circle_occupied(middle, 100.0)?);
    Ok(())
}
