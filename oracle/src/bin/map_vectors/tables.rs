//! Runs of maps, batches and changes of the radius, with all that the tables hold after each call.
//!
//! The calls are those of `oracle::map_list`. Every one but an entry is followed by `T`, which no number answers; in `stdout` the
//! map's points and pairs follow it, as in a listing: `p` x y status blocker, `e` x y x y blocker; after a refused call those of
//! the map before it.
use oracle::judged::{Changes, LEAST_SIZE, MOST_CELLS, MOST_COORDINATE, MOST_ENTRIES, MOST_SIZE};
use oracle::judged_map::{JudgedMap, MOST_POINTS};
use oracle::layouts::{
    block, checkerboard, entries, hook, islands, moved, racks, scattered, Layout,
};
use oracle::map_list::{Call, MapList, Step};
use oracle::occupancy::Cell;
use oracle::program::Failure;
use oracle::question::Entry;
use oracle::vectors::{pair_line, point_line, Vectors};
use std::collections::{BTreeMap, BTreeSet};

/// What the list must have at least, by the names under which it is counted.
const NEEDED: [(&str, usize); 27] = [
    ("runs", 300),
    ("runs in the yard class", 100),
    ("runs outside of the yard class", 100),
    ("runs that end with a dense floor", 20),
    ("runs that end with a sparse floor", 20),
    ("openings refused with 1", 1),
    ("openings refused with 2", 1),
    ("batches refused with 1", 1),
    ("batches refused with 3", 1),
    ("batches refused with 4", 1),
    ("batches refused with 5", 1),
    ("batches refused with 6", 1),
    ("batches refused with 7", 1),
    ("changes of the radius refused with 1", 1),
    ("changes of the radius refused with 2", 1),
    ("changes of the radius refused with 7", 1),
    ("batches that confirm nothing", 1),
    ("batches to 63 points", 1),
    ("batches to 64 points", 1),
    ("batches to 65 points, refused", 1),
    ("batches that pass 1024 cells on the way", 1),
    ("batches that pass 64 points on the way", 1),
    ("batches that have 128 points on the way", 1),
    ("batches in which a point goes and comes back", 1),
    ("steps after which blockers tell of the past", 1),
    ("points blocked", 100),
    ("pairs blocked", 100),
];

/// What happens to the points on the way through a batch.
struct Flight {
    most: usize,
    comes_back: bool,
}

/// The corner changes in turn, as the Rust takes them.
fn flight(before: &JudgedMap, after: &JudgedMap, changes: &Changes) -> Flight {
    let statuses = |map: &JudgedMap| -> BTreeMap<Cell, u8> {
        let points = map.rust().debug_points().iter();
        points
            .map(|(cell, (_, status))| (*cell, status.0))
            .collect()
    };
    let (old, shift) = (statuses(before), before.shift());
    let (mut points, mut gone) = (old.clone(), BTreeSet::new());
    let mut flight = Flight {
        most: 0,
        comes_back: false,
    };
    for (base, status) in &changes.corners {
        for (bit, (i, j)) in [(-1, -1), (1, -1), (-1, 1), (1, 1)].iter().enumerate() {
            let point = base.shifted(shift * i, shift * j);
            if status.0 >> bit & 1 == 1 {
                *points.entry(point).or_default() |= 1 << bit;
                flight.comes_back |= gone.contains(&point);
            } else if let Some(bits) = points.get_mut(&point) {
                *bits &= !(1 << bit);
                if *bits == 0 {
                    points.remove(&point);
                    gone.extend(old.get_key_value(&point).map(|(point, _)| *point));
                }
            }
            flight.most = flight.most.max(points.len());
        }
    }
    assert_eq!(points, statuses(after));
    flight
}

/// How many cells there are at most, as the confirmed changes are made one by one.
fn most_cells(before: &JudgedMap, changes: &Changes) -> i64 {
    let mut cells = before.cells() as i64;
    let counts = changes.confirmed.iter().map(|(_, occupied)| {
        cells += if *occupied { 1 } else { -1 };
        cells
    });
    counts.max().unwrap_or(0)
}

/// Every point and every pair of a map.
fn tables(list: &mut MapList, map: &JudgedMap) {
    let (mut lines, mut blocked) = (Vec::new(), [0, 0]);
    for (p, (blocker, status)) in map.rust().debug_points() {
        lines.push(point_line(p, *status, *blocker));
        blocked[0] += blocker.is_some() as usize;
    }
    let points = lines.len();
    for (p, q, blocker) in map.pairs() {
        lines.push(pair_line(p, q, blocker));
        blocked[1] += blocker.is_some() as usize;
    }
    for line in &lines {
        list.vectors.answer_more(line);
    }
    list.count("points told", points);
    list.count("points blocked", blocked[0]);
    list.count("pairs told", lines.len() - points);
    list.count("pairs blocked", blocked[1]);
    let past = map.tells_of_the_past() as usize;
    list.count("steps after which blockers tell of the past", past);
}

/// Dense where the cells take at least half of what they span, sparse where it is a tenth at most.
fn end_run(list: &mut MapList, map: &JudgedMap) {
    let cells = map.occupied_cells();
    let span = |f: fn(&Cell) -> i64| {
        let (low, high) = (cells.iter().map(f).min(), cells.iter().map(f).max());
        high.zip(low).map_or(0, |(high, low)| high - low + 1)
    };
    let (taken, all) = (cells.len() as i64, span(|c| c.x) * span(|c| c.y));
    if taken >= 4 && 2 * taken >= all {
        list.count("runs that end with a dense floor", 1);
    }
    if taken >= 2 && 10 * taken <= all {
        list.count("runs that end with a sparse floor", 1);
    }
}

fn note(list: &mut MapList, before: &JudgedMap, changes: &Changes) {
    let Some(after) = list.map.clone() else {
        return;
    };
    let flight = flight(before, &after, changes);
    let kinds = [
        ("confirm nothing", changes.confirmed.is_empty()),
        (
            "pass 1024 cells on the way",
            most_cells(before, changes) > MOST_CELLS as i64,
        ),
        ("pass 64 points on the way", flight.most > MOST_POINTS),
        ("have 128 points on the way", flight.most == 2 * MOST_POINTS),
    ];
    for (kind, is) in kinds {
        list.count(format!("batches that {kind}"), is as usize);
    }
    let kind = "batches in which a point goes and comes back";
    list.count(kind, flight.comes_back as usize);
    if after.points() > 62 {
        list.count(format!("batches to {} points", after.points()), 1);
    }
}

/// After a call: what kind it was, and the map's tables. A refused opening is followed by the map before.
fn tell(list: &mut MapList, step: Step) {
    match (&step.call, &step.before) {
        (Call::Opening, Some(before)) => end_run(list, before),
        (Call::Batch(_, Ok(changes)), Some(before)) => note(list, before, changes),
        (Call::Batch(batch, Err(7)), Some(before)) => {
            let points = before.changed(batch).0.points();
            list.count(format!("batches to {points} points, refused"), 1);
        }
        _ => (),
    }
    list.line('T', &[], &[]);
    if let Some(map) = list.map.clone().or(step.before) {
        tables(list, &map);
    }
}

// The maps of RULES 9.2, and others whose blockers are known.

fn blocker_of(list: &MapList, p: [i64; 2], q: [i64; 2]) -> Option<Option<Cell>> {
    let rows = list.map.as_ref()?.rust().debug_edges();
    rows.get(&p.into())?.get(&q.into()).copied()
}

/// The pair forgets what blocked it, the point does not.
fn example_10(list: &mut MapList) {
    list.open(256.0, 200.0);
    list.batch(&[(0, 0, true)]);
    list.batch(&[(-3, 2, true)]);
    let (p, q, blocker) = ([-2, 2], [2, 2], Some(Cell::new(-3, 2)));
    assert_eq!(blocker_of(list, p, q), Some(blocker));
    list.radius(200.0);
    assert_eq!(blocker_of(list, p, q), Some(None));
    let map = list.map.as_ref().expect("a map");
    assert_eq!(map.rust().debug_points()[&p.into()].0, blocker);
}

fn other_examples(list: &mut MapList) {
    list.open(256.0, 128.0);
    list.batch(&[(0, 0, true)]);
    list.batch(&[(1, 0, true)]);
    list.open(256.0, 128.0);
    list.batch(&[(0, 0, true), (1, 1, true)]);
    list.open(256.0, 128.0);
    list.batch(&[(0, 0, true), (2, 2, true)]);
    list.batch(&[(0, 0, false)]);
}

/// Blockers of slanted pairs have a history too; a segment along a cell's diagonal does not pass near it; a rounding
/// blocks a point from afar; a sweep that is repeated from the greater cell would find nothing.
fn known_blockers(list: &mut MapList) {
    list.open(2.0, 5.0);
    list.batch(&[(0, 0, true)]);
    list.batch(&[(-3, -4, true), (-1, -3, true)]);
    assert_eq!(
        blocker_of(list, [0, -7], [3, -3]),
        Some(Some(Cell::new(-1, -3)))
    );
    list.radius(5.0);
    assert_eq!(blocker_of(list, [0, -7], [3, -3]), Some(None));
    list.open(2.0, 1.0);
    list.batch(&[(0, 0, true), (5, 2, true)]);
    list.batch(&[(4, 1, true)]);
    assert_eq!(blocker_of(list, [1, -1], [4, 3]), Some(None));
    list.radius(1.0);
    assert_eq!(
        blocker_of(list, [1, -1], [4, 3]),
        Some(Some(Cell::new(4, 1)))
    );
    list.open(256.0, 0.0);
    list.batch(&[(0, 0, true), (6, 6, true)]);
    list.batch(&[(3, 3, true)]);
    assert_eq!(blocker_of(list, [1, 1], [5, 5]), Some(None));
    list.open(8.0, 12.0);
    list.batch(&[(-3, -2, true), (-3, 3, true), (-1, -3, true)]);
    list.batch(&[(0, -1, true)]);
    list.batch(&[(0, -1, false)]);
    assert_eq!(
        blocker_of(list, [-3, -1], [-1, 1]),
        Some(Some(Cell::new(-3, -2)))
    );
    for (size, radius, cell) in [
        (256.0, 16256.0 + 2f64.powi(-39), (0, 0, true)),
        (1000.1, 500.05, (3, -4, true)),
        (0.1, 0.15000000000000002, (10, -4, true)),
    ] {
        list.open(size, radius);
        list.batch(&[cell]);
    }
}

// What is refused.

/// After a refused opening there is no map, and every call is refused with 1.
fn refused_openings(list: &mut MapList) {
    let openings = [
        (LEAST_SIZE.next_down(), 0.0),
        (MOST_SIZE.next_up(), 0.0),
        (f64::NAN, f64::NAN),
        (f64::INFINITY, 1.0),
        (-256.0, -1.0),
        (256.0, -5e-324),
        (256.0, f64::NAN),
        (256.0, f64::INFINITY),
        (256.0, 16257.0),
        (LEAST_SIZE, 1e308),
    ];
    for (size, radius) in openings {
        list.open(256.0, 128.0);
        list.batch(&[(0, 0, true)]);
        list.open(size, radius);
        list.batch(&[(3, 3, true)]);
        list.batch(&[(3, 3, true), (3, 3, false)]);
        list.radius(128.0);
    }
}

fn openings_at_the_limits(list: &mut MapList) {
    for (size, radius) in [
        (LEAST_SIZE, 0.0),
        (MOST_SIZE, -0.0),
        (256.0, 16256.0),
        (LEAST_SIZE, LEAST_SIZE * 63.5),
        (MOST_SIZE, MOST_SIZE * 63.5),
    ] {
        list.open(size, radius);
        list.batch(&[(-MOST_COORDINATE, MOST_COORDINATE, true), (0, 7, true)]);
        list.radius(size);
    }
}

/// A refused batch, and then one that frees what it named.
fn refused(list: &mut MapList, batch: &[Entry]) {
    list.batch(batch);
    let named: BTreeSet<(i64, i64)> = batch.iter().map(|&(x, y, _)| (x, y)).collect();
    let allowed = -MOST_COORDINATE..=MOST_COORDINATE;
    let free: Vec<Entry> = named
        .into_iter()
        .filter(|(x, y)| allowed.contains(x) && allowed.contains(y))
        .map(|(x, y)| (x, y, false))
        .collect();
    list.batch(&free[..free.len().min(3)]);
}

fn refused_batches(list: &mut MapList) {
    const END: i64 = MOST_COORDINATE;
    list.open(256.0, 200.0);
    list.batch(&entries(block(3, 2), true));
    let mut many = entries((0..256).map(|i| Cell::new(i / 20, 30 + i % 20)), true);
    many.push((9, END + 1, true));
    refused(list, &many);
    for batch in [
        [(9, 9, true), (9, 9, true)],
        [(9, 9, false), (9, 9, true)],
        [(9, 9, true), (9, 8, true)],
        [(9, -9, true), (-9, 9, true)],
        [(END + 1, 0, true), (5, 5, true)],
        [(i64::MAX, 0, true), (i64::MIN, 0, true)],
        [(5, 5, true), (5, END + 1, true)],
        [(-END - 1, 0, true), (5, 5, true)],
        [(1 << 40, 0, true), ((1 << 40) + 1, 0, true)],
        [(i64::MIN, 0, true), (i64::MAX, 0, true)],
    ] {
        refused(list, &batch);
    }
}

fn refused_radii(list: &mut MapList) {
    list.open(256.0, 200.0);
    list.batch(&[(0, 0, true)]);
    list.batch(&[(-3, 2, true)]);
    for radius in [
        -1.0,
        -5e-324,
        f64::NAN,
        f64::INFINITY,
        16257.0,
        16256.0f64.next_up(),
        1e308,
    ] {
        list.radius(radius);
    }
    list.radius(-0.0);
    list.radius(16256.0);
}

fn pending_entries_are_dropped(list: &mut MapList) {
    list.open(2.0, 1.0);
    list.entry((0, 0, true));
    list.entry((-5, 0, true));
    list.open(2.0, 1.0);
    list.batch(&[]);
    list.batch(&[(1, 1, true)]);
    list.batch(&[]);
    list.batch(&[(1, 1, true), (2, 2, false)]);
}

// Where there is room for no more.

/// Fifteen islands, three of them hooks: each further hook has one point more.
fn points_at_the_limit(list: &mut MapList, size: f64, radius: f64) {
    list.open(size, radius);
    let islands: Vec<Cell> = islands(15).into_iter().collect();
    let hooks = |range: std::ops::Range<usize>| islands[range].iter().flat_map(|at| hook(*at));
    let cells: BTreeSet<Cell> = islands.iter().copied().chain(hooks(0..3)).collect();
    list.batch(&entries(cells, true));
    list.batch(&entries(hooks(3..4), true));
    list.batch(&entries(hooks(4..5), true));
    let first = Cell::new(-9, 0);
    let last = islands[14];
    let replaced = [(first.x, first.y, true), (last.x, last.y, false)];
    list.batch(&replaced);
    refused(list, &[(-9, 9, true)]);
}

/// All points go and as many others come, so that both are there on the way; and before that one too many.
fn all_points_replaced(list: &mut MapList) {
    list.open(256.0, 128.0);
    let (old, new) = (islands(16), moved(islands(16), -40, 0));
    list.batch(&entries(old.clone(), true));
    let freed = entries(old, false);
    let hooked: Layout = new.iter().copied().chain(hook(Cell::new(-40, 0))).collect();
    list.batch(&[entries(hooked, true), freed.clone()].concat());
    list.batch(&[entries(new, true), freed].concat());
}

/// Every second cell of a square: at the shift 1 the points fall together, at 2 there are too many. Some of what is
/// refused breaks a second rule as well.
fn lattice(list: &mut MapList, size: f64) {
    list.open(size, size / 2.0);
    let cells = block(7, 7).into_iter().map(|c| Cell::new(2 * c.x, 2 * c.y));
    list.batch(&entries(cells, true));
    list.radius(size);
    list.radius(70.0 * size);
    refused(list, &[(20, 20, true), (20, -20, true)]);
    refused(list, &[(20, 20, true), (MOST_COORDINATE + 1, 0, true)]);
    list.radius(0.0);
    list.batch(&[(0, 0, false), (6, 6, false)]);
    list.radius(3.0 * size);
}

/// A block of 1,024 cells, put down a few columns at a time. Some of what is refused breaks a second rule as well.
fn cells_at_the_limit(list: &mut MapList, size: f64, radius: f64) {
    list.open(size, radius);
    let all: Vec<Cell> = block(32, 32).into_iter().collect();
    for part in all.chunks(MOST_ENTRIES) {
        list.batch(&entries(part.iter().copied(), true));
    }
    refused(list, &[(-1, 0, true)]);
    refused(list, &[(40, 0, true)]);
    refused(list, &entries(moved(islands(16), 40, 0), true));
    refused(list, &[(41, 0, true), (40, 0, true)]);
    refused(list, &[(40, 0, true), (MOST_COORDINATE + 1, 0, true)]);
    list.batch(&[(-1, 0, true), (31, 31, false)]);
    list.batch(&[(0, 0, false), (31, 31, true)]);
    list.batch(&[(-2, 0, true), (-2, 1, true), (31, 31, false)]);
    let (added, freed) = (moved(block(4, 32), -6, 0), moved(block(4, 32), 28, 0));
    let (added, freed) = (entries(added, true), entries(freed, false));
    list.batch(&[&added[..], &freed[..127]].concat());
    list.batch(&[&added[..], &freed].concat());
    list.radius(2.0 * radius);
}

/// A cell goes and another comes that has a corner for the same point, and the other way round.
fn points_that_come_back(list: &mut MapList) {
    for (size, radius, shift) in [(256.0, 128.0, 1), (2.0, 2.0, 2), (1000.1, 1700.0, 3)] {
        let other = 2 * shift;
        list.open(size, radius);
        list.batch(&[(0, 0, true)]);
        list.batch(&[(0, 0, false), (other, other, true)]);
        list.batch(&[(0, 0, true), (other, other, false)]);
        list.batch(&[(0, 0, false), (other, 0, true), (other, 5 * shift, true)]);
        list.batch(&[(0, 0, true), (other, 0, false), (other, 5 * shift, false)]);
    }
}

// Runs at random.

fn small_runs(list: &mut MapList) {
    for i in 0..250 {
        let (extent, most) = list.random.pick(&[(1, 5), (2, 4), (3, 3), (5, 2), (9, 2)]);
        let steps = 3 + list.random.below(4);
        list.run(i % 2 == 0, extent, most, steps);
    }
}

fn larger_runs(list: &mut MapList) {
    for i in 0..24 {
        let (extent, most) = list.random.pick(&[(2, 14), (3, 20), (6, 6), (12, 6)]);
        list.run(i % 2 == 0, extent, most, 3);
    }
}

/// About as many points as there may be.
fn crowded_runs(list: &mut MapList) {
    for i in 0..6 {
        list.open_any(i % 2 == 0);
        let layout = scattered(&mut list.random, 17, 14);
        list.batch(&entries(moved(layout, -7, -7), true));
        for _ in 0..4 {
            list.any_batch(Cell::new(0, 0), 7, 4);
        }
    }
}

/// Floors of the known kinds, then a batch about them.
fn laid_out_runs(list: &mut MapList) {
    for i in 0..16 {
        list.open_any(i % 2 == 0);
        let layout = match i / 2 {
            0 => block(4, 4),
            1 => racks(12, 3),
            2 => checkerboard(4, 4),
            3 => checkerboard(5, 3),
            4 => racks(20, 5),
            5 => block(1, 9),
            6 => scattered(&mut list.random, 5, 40),
            _ => scattered(&mut list.random, 8, 5),
        };
        let by = list.random.pick(&[0, -2, -7]);
        list.batch(&entries(moved(layout, by, by), true));
        list.any_batch(Cell::new(0, 0), 3, 5);
        list.any_radius(i % 2 == 0);
    }
}

pub fn vectors() -> Result<Vectors, Failure> {
    let mut list = MapList::new(33, tell);
    example_10(&mut list);
    other_examples(&mut list);
    known_blockers(&mut list);
    refused_openings(&mut list);
    openings_at_the_limits(&mut list);
    refused_batches(&mut list);
    refused_radii(&mut list);
    pending_entries_are_dropped(&mut list);
    points_at_the_limit(&mut list, 256.0, 200.0);
    points_at_the_limit(&mut list, 1000.1, 377.7);
    all_points_replaced(&mut list);
    lattice(&mut list, 64.0);
    lattice(&mut list, 0.1);
    cells_at_the_limit(&mut list, 256.0, 200.0);
    points_that_come_back(&mut list);
    small_runs(&mut list);
    larger_runs(&mut list);
    crowded_runs(&mut list);
    laid_out_runs(&mut list);
    if let Some(map) = list.map.clone() {
        end_run(&mut list, &map);
    }
    list.finish(&NEEDED, [500_000, 1_500_000])
}
