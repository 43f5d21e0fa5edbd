//! What `plan` prints, `plan make` reads: the same cells, cell size and radius.

use crate::common::{examples, Dice};
use plan::{drawing, floor::Floor, text};
use runcedau::{Cell, Map};

fn assert_same_after_a_round_trip(name: &str, map: &Map) {
    let drawn = text::plan(&Floor::of(map));
    let made =
        drawing::read(drawn.as_bytes()).unwrap_or_else(|wrong| panic!("{name}: {wrong}\n{drawn}"));
    let (size, radius) = (
        made.size.expect("a cell size"),
        made.radius.expect("a radius"),
    );
    let again = Map::of_cells(size, radius, &made.cells).expect(name);
    let again = Map::read(&again.write().expect(name)).expect(name);
    assert_eq!(
        again.cell_size().to_bits(),
        map.cell_size().to_bits(),
        "{name}"
    );
    assert_eq!(
        again.agent_radius().to_bits(),
        map.agent_radius().to_bits(),
        "{name}"
    );
    assert_eq!(
        again.occupied_cells(),
        map.occupied_cells(),
        "{name}\n{drawn}"
    );
}

#[test]
fn the_examples_come_back() {
    for (name, map) in examples() {
        assert_same_after_a_round_trip(&name, &map);
    }
}

#[test]
fn random_floors_come_back() {
    let mut dice = Dice(20_260);
    let (mut cells, mut cut, mut taken) = (0, 0, 0);
    for i in 0..300 {
        let map = dice.floor();
        assert_same_after_a_round_trip(&format!("floor {i}"), &map);
        let drawn = text::plan(&Floor::of(&map));
        cells += map.occupied_cells().len();
        cut += usize::from(drawn.contains('~'));
        taken += usize::from(drawn.contains('X'));
    }
    // there was something to lose
    assert!(cells > 10_000, "{cells} cells");
    assert!(cut > 100, "{cut} floors with a cut");
    assert!(taken > 5, "{taken} floors with a point on an occupied cell");
}

/// Two full columns, and between them nine cells in every third row: a part of it has more points
/// than the whole.
#[test]
fn a_comb_of_which_a_part_has_too_many_points_comes_back() {
    let cells = (0..11).flat_map(|x| (0..97).map(move |y| Cell::new(x, y)));
    let cells: Vec<Cell> = cells.filter(|c| c.x % 10 == 0 || c.y % 3 == 0).collect();
    let map = Map::of_cells(256.0, 128.0, &cells).expect("a floor with 4 points");
    assert_eq!(map.points().len(), 4);
    assert_same_after_a_round_trip("a comb", &map);
}
