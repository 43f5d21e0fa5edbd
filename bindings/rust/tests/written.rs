//! What a map is written as reads back to the same map, but for blockers.
#[path = "common/examples.rs"]
mod examples;
#[path = "common/random.rs"]
mod random;

use examples::examples;
use random::Random;
use runcedau::{Cell, Map, Pair, Refusal};

/// A map with these cells, batch by batch in the order in which they come.
fn map_of(size: f64, radius: f64, cells: &[(i64, i64)]) -> Result<Map, Refusal> {
    let mut map = Map::new(size, radius)?;
    for part in cells.chunks(256) {
        let mut batch: Vec<(Cell, bool)> = part.iter().map(|c| (Cell::from(*c), true)).collect();
        batch.sort();
        batch.dedup();
        map.change_cells(&batch)?;
    }
    Ok(map)
}

/// Two full columns, and between them nine cells in every third row: cut inside these it has more
/// than 64 points, whole it has four. It comes row by row, which is accepted.
fn comb(x: i64, y: i64) -> Vec<(i64, i64)> {
    let cells = (0..97).flat_map(|dy| (0..11).map(move |dx| (dx, dy)));
    let comb = cells.filter(|(dx, dy)| dx % 10 == 0 || dy % 3 == 0);
    comb.map(|(dx, dy)| (x + dx, y + dy)).collect()
}

/// The same, lying: x and y in each other's place.
fn lying(comb: Vec<(i64, i64)>) -> Vec<(i64, i64)> {
    comb.into_iter().map(|(x, y)| (y, x)).collect()
}

/// The cells in the change lists of a file, list by list.
fn lists(file: &[u8]) -> Vec<Vec<(i32, i32)>> {
    let mut rest = &file[22..];
    let mut lists = Vec::new();
    while rest[0] == 3 {
        let length = u16::from_be_bytes([rest[1], rest[2]]) as usize;
        let number = |bytes: &[u8]| i32::from_be_bytes(bytes.try_into().unwrap());
        let cell = |entry: &[u8]| (number(&entry[..4]), number(&entry[4..8]));
        lists.push(rest[3..3 + length].chunks(9).map(cell).collect());
        rest = &rest[3 + length..];
    }
    assert_eq!(rest, [0xff, 0, 0]);
    lists
}

fn same_but_blockers(one: &Map, other: &Map) {
    assert_eq!(one.cell_size().to_bits(), other.cell_size().to_bits());
    assert_eq!(one.agent_radius().to_bits(), other.agent_radius().to_bits());
    assert_eq!(one.occupied_cells(), other.occupied_cells());
    assert_eq!(one.corners(), other.corners());
    let points = |map: &Map| -> Vec<(Cell, u8)> {
        map.points().iter().map(|p| (p.cell, p.status)).collect()
    };
    assert_eq!(points(one), points(other));
    let (ones, others): (Vec<Pair>, Vec<Pair>) = (one.pairs(), other.pairs());
    assert_eq!(ones.len(), others.len());
    assert!(ones.iter().zip(&others).all(|(p, q)| p.same_ends(q)));
}

/// Writes it and reads it back; how many change lists there are.
fn round(map: &Map) -> usize {
    let file = map.write().expect("an order that works");
    same_but_blockers(map, &Map::read(&file).expect("what was written"));
    let lists = lists(&file);
    for list in &lists {
        assert!((1..=256).contains(&list.len()));
        assert!(list.is_sorted_by(|a, b| a < b));
    }
    let cells: usize = lists.iter().map(Vec::len).sum();
    assert_eq!(cells, map.occupied_cells().len());
    lists.len()
}

#[test]
fn an_empty_map_is_three_fields() {
    let map = Map::new(256.0, 128.0).unwrap();
    assert_eq!(map.write().unwrap().len(), 11 + 11 + 3);
    assert_eq!(round(&map), 0);
}

#[test]
fn one_cell_is_the_example_of_the_rules() {
    let map = map_of(256.0, 128.0, &[(0, 0)]).unwrap();
    let (_, file) = examples()
        .into_iter()
        .find(|(name, _)| name == "one_cell")
        .unwrap();
    assert_eq!(map.write().unwrap(), file);
    assert_eq!(round(&map), 1);
}

#[test]
fn the_examples() {
    for (name, file) in examples() {
        let lists = if name == "full_floor" { 4 } else { 1 };
        assert_eq!(round(&Map::read(&file).unwrap()), lists, "{name}");
    }
}

/// Column by column the first cut is inside the comb, and there is no further cell in that order.
#[test]
fn a_comb_that_cannot_be_cut_by_columns() {
    let cells = comb(0, 0);
    let mut by_columns = cells.clone();
    by_columns.sort();
    assert_eq!(
        map_of(256.0, 128.0, &by_columns).err(),
        Some(Refusal::TooManyPoints)
    );
    let map = map_of(256.0, 128.0, &cells).unwrap();
    assert_eq!(map.points().len(), 4);
    assert_eq!(round(&map), 2);
    assert_eq!(round(&map_of(256.0, 128.0, &lying(cells)).unwrap()), 2);
}

/// One is not to be cut by columns, the other not by rows, and in either order they are mixed.
#[test]
fn a_comb_beside_a_lying_one() {
    for (x, y) in [(0, 200), (40, 40), (-200, 0), (300, -300), (0, -120)] {
        let cells = [comb(0, 0), lying(comb(y, x))].concat();
        let map = map_of(256.0, 128.0, &cells).unwrap();
        assert_eq!((map.occupied_cells().len(), map.points().len()), (982, 8));
        assert_eq!(round(&map), 4);
    }
}

/// As much as there may be: a square of 32 times 32, and 16 blocks of 64 in rows of four.
#[test]
fn full_floors() {
    let square: Vec<(i64, i64)> = (0..1024).map(|n| (n % 32, n / 32)).collect();
    assert_eq!(round(&map_of(256.0, 200.0, &square).unwrap()), 4);
    let block = |n: i64| (0..64).map(move |m| (n % 4 * 20 + m % 8, n / 4 * 20 + m / 8));
    let blocks: Vec<(i64, i64)> = (0..16).flat_map(block).collect();
    let map = map_of(256.0, 128.0, &blocks).unwrap();
    assert_eq!((map.occupied_cells().len(), map.points().len()), (1024, 64));
    assert_eq!(round(&map), 4);
}

/// A floor of rectangles, some of them freed again, as far as the library accepts it.
fn random_floor(random: &mut Random) -> Map {
    let size = [256.0, 1.0, 0.3, 1000.0][random.below(4) as usize];
    let radius = size * [0.0, 0.5, 0.7, 1.0, 2.3][random.below(5) as usize];
    let mut map = Map::new(size, radius).unwrap();
    let spread = 4 + random.below(60);
    for _ in 0..1 + random.below(30) {
        let (x, y) = (random.below(spread), random.below(spread));
        let (w, h) = (1 + random.below(16), 1 + random.below(16));
        let occupied = random.below(4) > 0;
        let cells = (x..x + w).flat_map(|x| (y..y + h).map(move |y| (x, y)));
        let batch: Vec<(Cell, bool)> = cells.map(|c| (c.into(), occupied)).collect();
        let _ = map.change_cells(&batch);
    }
    map
}

#[test]
fn random_floors() {
    let mut random = Random(1);
    let floors: Vec<Map> = (0..400).map(|_| random_floor(&mut random)).collect();
    let fullest = floors.iter().map(|map| map.occupied_cells().len()).max();
    assert!(fullest > Some(900));
    let lists: Vec<usize> = floors.iter().map(round).collect();
    assert!(lists.contains(&1) && lists.contains(&4));
}
