//! What holds of maps as values: copies, refusals, and how they are printed.
#[path = "common/examples.rs"]
mod examples;

use examples::examples;
use runcedau::{Cell, Map, Pair, Point, Refusal, VisiblePoint};

fn with(cells: &[(i64, i64)]) -> Map {
    let mut map = Map::new(256.0, 200.0).unwrap();
    let batch: Vec<(Cell, bool)> = cells.iter().map(|cell| ((*cell).into(), true)).collect();
    map.change_cells(&batch).unwrap();
    map
}

#[test]
fn a_clone_is_a_map_of_its_own() {
    let mut map = with(&[(0, 0)]);
    let mut clone = map.clone();
    let before = map.listing();
    clone.change_cells(&[(Cell::new(-3, 2), true)]).unwrap();
    assert_eq!(map.listing(), before);
    assert_eq!(clone.points().len(), 8);
    let changed = clone.listing();
    map.change_cells(&[(Cell::new(0, 0), false)]).unwrap();
    map.change_agent_radius(0.0).unwrap();
    assert_eq!(clone.listing(), changed);
    assert_eq!(clone.agent_radius(), 200.0);
    drop(map);
    assert_eq!(clone.listing(), changed);
}

#[test]
fn a_refused_change_leaves_the_map() {
    let mut map = with(&[(0, 0), (5, 5)]);
    let before = map.listing();
    let far = [(Cell::new(1, 1), true), (Cell::new(1_048_577, 0), true)];
    assert_eq!(map.change_cells(&far), Err(Refusal::Coordinate));
    let lone: Vec<(Cell, bool)> = (2..20).map(|n| (Cell::new(9 * n, 0), true)).collect();
    assert_eq!(map.change_cells(&lone), Err(Refusal::TooManyPoints));
    assert_eq!(map.change_agent_radius(-1.0), Err(Refusal::Radius));
    assert_eq!(map.listing(), before);
}

/// A refused file gives an error in place of a map, whichever part of it was good.
#[test]
fn a_refused_file_makes_no_map() {
    for (name, file) in examples() {
        for length in 0..file.len().min(600) {
            assert!(
                Map::read(&file[..length]).is_err(),
                "{name}, {length} bytes"
            );
        }
        assert!(Map::read(&file).is_ok());
    }
}

/// Which is that of the program `listing` too.
#[test]
fn a_map_that_was_read_has_the_listing_of_its_file() {
    for (name, file) in examples() {
        let map = Map::read(&file).unwrap();
        assert_eq!(map.listing(), runcedau::listing(&file), "{name}");
        assert!(map.listing().starts_with(b"cells "));
    }
}

#[test]
fn words_for_a_person() {
    let map = with(&[(0, 0), (1, 0)]);
    let debug = "Map { cell_size: 256.0, agent_radius: 200.0, cells: 2, points: 4, .. }";
    assert_eq!(format!("{map:?}"), debug);
    let cell = Cell::from((-2, 2));
    let blocker = Some(Cell::new(-3, 2));
    let point = VisiblePoint {
        cell,
        status: 4,
        blocker,
    };
    assert_eq!(point.to_string(), "-2,2 status 4, blocker -3,2");
    let pair = Pair {
        lesser: cell,
        greater: Cell::new(2, 2),
        blocker: None,
    };
    assert_eq!(pair.to_string(), "-2,2 to 2,2, no blocker");
    assert_eq!(Point::new(128.0, -0.5).to_string(), "(128, -0.5)");
    let refused = Map::read(&[]).unwrap_err();
    assert_eq!(
        refused.to_string(),
        format!("field 0: {}", Refusal::MalformedFile)
    );
}
