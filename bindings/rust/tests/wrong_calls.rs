//! Wrong calls of those who own their tables: each is refused, and alters nothing.
use runcedau::{ffi, Point};

/// All that is lent.
#[derive(Clone, PartialEq)]
struct Lent {
    cells: Vec<u64>,
    points: Vec<u64>,
    statuses: Vec<u8>,
    blockers: Vec<u64>,
    pairs: Vec<u64>,
    confirmed: Vec<u64>,
    full: Vec<u8>,
    corners: Vec<u64>,
    altered: Vec<u8>,
}

impl Lent {
    fn open() -> (Self, ffi::Map) {
        let mut lent = Lent {
            cells: vec![7; 1024],
            points: vec![7; 64],
            statuses: vec![7; 64],
            blockers: vec![7; 64],
            pairs: vec![7; 4096],
            confirmed: vec![7; 256],
            full: vec![7; 256],
            corners: vec![7; 2304],
            altered: vec![7; 2304],
        };
        let opened = ffi::runcedau_open(
            256.0,
            128.0,
            &mut lent.cells,
            &mut lent.points,
            &mut lent.statuses,
            &mut lent.blockers,
            &mut lent.pairs,
        );
        assert_eq!(opened.refusal, 0);
        (lent, opened.map)
    }

    fn read(&mut self, file: &[u8]) -> ffi::Opened {
        ffi::runcedau_lent_read(
            file,
            &mut self.cells,
            &mut self.points,
            &mut self.statuses,
            &mut self.blockers,
            &mut self.pairs,
        )
    }

    fn change(&mut self, map: ffi::Map, batch: &[i64]) -> ffi::Changed {
        ffi::runcedau_change_cells(
            map,
            &mut self.cells,
            &mut self.points,
            &mut self.statuses,
            &mut self.blockers,
            &mut self.pairs,
            batch,
            &mut self.confirmed,
            &mut self.full,
            &mut self.corners,
            &mut self.altered,
        )
    }

    /// With the cell 0,0 occupied.
    fn one_cell() -> (Self, ffi::Map) {
        let (mut lent, map) = Self::open();
        let changed = lent.change(map, &[0, 0, 1]);
        assert_eq!((changed.refusal, changed.map.cells), (0, 1));
        (lent, changed.map)
    }
}

/// Ascending cells, each to be occupied.
fn entries(count: i64) -> Vec<i64> {
    (0..count).flat_map(|x| [2 * x, 9, 1]).collect()
}

#[test]
fn a_batch_that_is_no_whole_entries_is_refused_with_4() {
    let (mut lent, map) = Lent::one_cell();
    let batch = entries(4);
    for length in [1, 2, 4, 5, 7, 8, 10, 11] {
        let before = lent.clone();
        let changed = lent.change(map, &batch[..length]);
        assert_eq!(changed.refusal, 4, "{length} numbers");
        assert!(!changed.yes && changed.map == ffi::Map::default());
        assert!(lent == before);
    }
    let changed = lent.change(map, &batch);
    assert_eq!((changed.refusal, changed.confirmed), (0, 4));
}

/// 3 comes before 4, and what is left over is no entry more.
#[test]
fn what_is_left_over_is_no_entry() {
    let (mut lent, map) = Lent::one_cell();
    let batch = entries(258);
    assert_eq!(lent.change(map, &batch[..3 * 256 + 2]).refusal, 4);
    assert_eq!(lent.change(map, &batch[..3 * 257 + 2]).refusal, 3);
}

/// From beside the cell through it: a point test of the first end would say free.
#[test]
fn an_unknown_shape_is_refused_with_8() {
    let (lent, map) = Lent::one_cell();
    let (p, q) = (Point::new(-640.0, 128.0), Point::new(640.0, 128.0));
    for shape in 0..=u8::MAX {
        let found = ffi::runcedau_ask(map, &lent.cells, shape, p, q, 100.0);
        assert_eq!(found.refusal, if shape < 4 { 0 } else { 8 }, "{shape}");
        assert_eq!(found.some, shape == 3, "{shape}");
    }
}

/// Which shape, and whether its number is in bounds, is judged after the map.
#[test]
fn an_unknown_shape_of_no_map_is_refused_with_1() {
    let (lent, _) = Lent::one_cell();
    let p = Point::new(0.0, 0.0);
    let found = ffi::runcedau_ask(ffi::Map::default(), &lent.cells, 9, p, p, 0.0);
    assert_eq!(found.refusal, 1);
}

/// What a refused call gave is no map, and the map is what it was.
#[test]
fn after_a_refusal_the_map_is_what_was_handed_in() {
    let (mut lent, map) = Lent::one_cell();
    let refused = lent.change(map, &[5, 5, 1, 5, 5, 0]);
    assert_eq!(refused.refusal, 4);
    assert_eq!(lent.change(refused.map, &[5, 5, 1]).refusal, 1);
    let changed = lent.change(map, &[5, 5, 1]);
    assert_eq!((changed.refusal, changed.map.cells), (0, 2));
}

/// The second change list names a cell twice; the first is not kept either.
#[test]
fn a_refused_file_leaves_the_tables() {
    let folder = concat!(env!("CARGO_MANIFEST_DIR"), "/../../examples");
    let file = std::fs::read(format!("{folder}/refused.map")).unwrap();
    let (mut lent, _) = Lent::one_cell();
    let before = lent.clone();
    let opened = lent.read(&file);
    assert_eq!((opened.refusal, opened.field), (4, 3));
    assert_eq!(opened.map, ffi::Map::default());
    assert!(lent == before);
}

#[test]
fn a_table_that_is_too_short_for_a_file_is_refused_with_9() {
    let file = runcedau::Map::new(256.0, 128.0).unwrap().write().unwrap();
    let shorten: [fn(&mut Lent); 5] = [
        |lent| lent.cells.truncate(1023),
        |lent| lent.points.truncate(63),
        |lent| lent.statuses.truncate(63),
        |lent| lent.blockers.truncate(63),
        |lent| lent.pairs.truncate(4095),
    ];
    for shorten in shorten {
        let (mut lent, _) = Lent::one_cell();
        shorten(&mut lent);
        let before = lent.clone();
        let opened = lent.read(&file);
        assert_eq!((opened.refusal, opened.field), (9, 0));
        assert!(lent == before);
    }
    let (mut lent, _) = Lent::one_cell();
    assert_eq!(lent.read(&file).refusal, 0);
}
