//! Runs on maps, with questions and lists in between.
//!
//! The calls that alter the map are those of `oracle::map_list`. The others:
//!
//! - `i` x y: is the cell occupied? The refusal, 1 or 0
//! - `p` x y, `s` x y width, `c` x y radius, `w` x0 y0 x1 y1 width: the refusal, 1 or 0, the x and y of the cell found
//! - `v` x y, `n` x y: the points in sight of the cell, its neighbours
//! - `O`, `C`, `P`, `F`, `E`, `U`: the occupied cells, the cells with a corner, all points, the unblocked ones, all pairs, the open ones
//!
//! A list is answered by the refusal and its length, and in `stdout` each of its things follows on a line of its own: `.` x y,
//! `^` x y status, `p` x y status blocker, `e` x y x y blocker.
use oracle::judged::{LEAST_SIZE, MOST_COORDINATE, MOST_ENTRIES, MOST_QUERY, MOST_SIZE};
use oracle::judged_map::{JudgedMap, BEYOND};
use oracle::layouts::{block, checkerboard, entries, islands, moved, racks, scattered, Layout};
use oracle::map_list::{MapList, Step};
use oracle::occupancy::{secondary_cardinal_directions, Cell, Grid, Point};
use oracle::program::Failure;
use oracle::question::Question;
use oracle::vectors::{
    pair_line, place, place_numbers, point_line, question_line, status_line, Vectors,
};

const QUESTIONS: [char; 7] = ['i', 'p', 's', 'c', 'w', 'v', 'n'];
const LISTS: [char; 6] = ['O', 'C', 'P', 'F', 'E', 'U'];
const EDGE: i64 = MOST_COORDINATE;

/// What the list must have at least beside the answers of each kind.
const NEEDED: [(&str, usize); 23] = [
    ("answers", 3_000),
    ("runs", 60),
    ("runs in the yard class", 20),
    ("runs outside of the yard class", 20),
    ("i beyond what keys hold", 50),
    ("v from a point", 100),
    ("v from a point that is blocked", 10),
    ("v from a point, a blocked point in sight", 10),
    ("v from an occupied cell", 30),
    ("v from any other cell", 100),
    ("v leaves out a point that is blocked", 50),
    ("v leaves out a point by its quadrant", 50),
    ("v leaves out a point by the sweep", 50),
    ("v that a sweep from the point would answer otherwise", 10),
    ("n of an occupied cell", 30),
    (
        "n that a sweep from the neighbour would answer otherwise",
        10,
    ),
    ("n with all eight", 30),
    ("n with fewer than eight", 50),
    ("lists of 64 points", 4),
    ("lists of 1024 cells", 1),
    ("lists in which blockers tell of the past", 10),
    ("open pairs fewer than unblocked ones", 10),
    ("cells named beyond those of a batch", 20),
];
/// The same for each question, and for each list.
const OF_A_QUESTION: [(&str, usize); 4] = [
    ("in all", 300),
    ("with something", 60),
    ("with nothing", 30),
    ("refused with 1", 10),
];
const OF_A_LIST: [(&str, usize); 4] = [
    ("in all", 60),
    ("with something", 40),
    ("with nothing", 5),
    ("refused with 1", 5),
];

// What is asked, and how it is answered.

/// An answer with something in it, with nothing, or a refusal.
fn note(list: &mut MapList, letter: char, found: Result<bool, u64>) {
    let way = match found {
        Ok(true) => "with something".into(),
        Ok(false) => "with nothing".into(),
        Err(refusal) => format!("refused with {refusal}"),
    };
    list.count(format!("{letter} {way}"), 1);
    list.count(format!("{letter} in all"), 1);
    list.count("answers", 1);
}

fn operands(cell: Cell) -> [u64; 2] {
    [cell.x as u64, cell.y as u64]
}

fn look(list: &mut MapList, cell: Cell) {
    let told = list.map.as_ref().map(|map| map.is_occupied(cell)).ok_or(1);
    let answer = told.map_or_else(|refusal| [refusal as i64, 0], |yes| [0, yes as i64]);
    list.line('i', &operands(cell), &answer);
    note(list, 'i', told);
    let held = -1i64 << 31..1 << 31;
    let beyond = !held.contains(&cell.x) || !held.contains(&cell.y);
    list.count("i beyond what keys hold", beyond as usize);
}

fn ask(list: &mut MapList, question: Question) {
    let (letter, operands) = question_line(&question);
    let found = list.map.as_ref().map_or(Err(1), |map| map.ask(&question));
    list.line(letter, &operands, &place_numbers(found));
    note(list, letter, found.map(|cell| cell.is_some()));
}

/// A list of any kind, a line for each of its things.
fn listed<T>(
    list: &mut MapList,
    letter: char,
    operands: &[u64],
    things: &Result<Vec<T>, u64>,
    line: fn(&T) -> String,
) {
    let count = things.as_ref().map(Vec::len).map_err(|refusal| *refusal);
    let answer = count.map_or_else(|refusal| [refusal as i64, 0], |count| [0, count as i64]);
    list.line(letter, operands, &answer);
    for thing in things.iter().flatten() {
        list.vectors.answer_more(&line(thing));
    }
    note(list, letter, count.map(|count| count > 0));
}

fn cell_line(cell: &Cell) -> String {
    format!(". {} {}", cell.x, cell.y)
}

fn ascend<T: PartialOrd>(things: &[T]) -> bool {
    things.windows(2).all(|pair| pair[0] < pair[1])
}

/// Ascending, from a point and from any other cell.
fn see(list: &mut MapList, cell: Cell) {
    let seen = list.map.as_ref().map_or(Err(1), |map| map.visibility(cell));
    listed(list, 'v', &operands(cell), &seen, cell_line);
    if let (Ok(seen), Some(map)) = (seen, list.map.clone()) {
        assert!(ascend(&seen));
        note_seen(list, &map, cell, &seen);
    }
}

fn note_seen(list: &mut MapList, map: &JudgedMap, cell: Cell, seen: &[Cell]) {
    let points = map.rust().debug_points();
    // the Rust looks for a row of pairs, the rules (2.5) for a point
    assert!(map.rust().debug_edges().keys().eq(points.keys()));
    if let Some((blocker, _)) = points.get(&cell) {
        let blocked = seen.iter().any(|p| points[p].0.is_some());
        list.count("v from a point", 1);
        list.count("v from a point that is blocked", blocker.is_some() as usize);
        list.count("v from a point, a blocked point in sight", blocked as usize);
        return;
    }
    let kind = if map.is_occupied(cell) {
        "an occupied"
    } else {
        "any other"
    };
    list.count(format!("v from {kind} cell"), 1);
    for (p, (blocker, status)) in points {
        let quadrant = cell.in_visible_quadrant_of(p, *status);
        let why = match (blocker, quadrant, seen.contains(p)) {
            (Some(_), _, false) => "a point that is blocked",
            (None, false, false) => "a point by its quadrant",
            (None, true, false) => "a point by the sweep",
            (None, true, true) => "no point",
            _ => panic!("{cell:?} sees {p:?}"),
        };
        list.count(format!("v leaves out {why}"), 1);
    }
}

/// In the order of the eight directions.
fn walk(list: &mut MapList, cell: Cell) {
    let found = list.map.as_ref().map_or(Err(1), |map| map.neighbours(cell));
    listed(list, 'n', &operands(cell), &found, cell_line);
    let occupied = list.map.as_ref().is_some_and(|map| map.is_occupied(cell));
    list.count("n of an occupied cell", occupied as usize);
    if let Ok(found) = found {
        let eight = secondary_cardinal_directions().map(|[i, j]| cell.shifted(i, j));
        let place = |near: &Cell| eight.iter().position(|cell| cell == near);
        let places: Option<Vec<usize>> = found.iter().map(place).collect();
        assert!(places.is_some_and(|places| ascend(&places)));
        list.count("n with all eight", (found.len() == 8) as usize);
        list.count(
            "n with fewer than eight",
            (1..8).contains(&found.len()) as usize,
        );
    }
}

/// The lines of a list, which has to ascend.
fn lines_of(map: &JudgedMap, letter: char) -> Vec<String> {
    let cells = |cells: Vec<Cell>| {
        assert!(ascend(&cells));
        cells.iter().map(cell_line).collect()
    };
    match letter {
        'O' => cells(map.occupied_cells()),
        'F' => cells(map.free_points()),
        'C' => {
            let corners = map.corners();
            assert!(ascend(&corners.iter().map(|(c, _)| c).collect::<Vec<_>>()));
            let line = |(c, s): &(Cell, _)| status_line(c, s);
            corners.iter().map(line).collect()
        }
        'P' => {
            let points = map.rust().debug_points().iter();
            points
                .map(|(p, (blocker, status))| point_line(p, *status, *blocker))
                .collect()
        }
        'E' => map
            .pairs()
            .iter()
            .map(|(p, q, blocker)| pair_line(*p, *q, *blocker))
            .collect(),
        _ => {
            let pairs = map.open_pairs();
            assert!(ascend(&pairs) && pairs.iter().all(|(p, q)| p < q));
            pairs.iter().map(|(p, q)| pair_line(*p, *q, None)).collect()
        }
    }
}

fn lists(list: &mut MapList) {
    for letter in LISTS {
        let lines = list.map.as_ref().map(|map| lines_of(map, letter)).ok_or(1);
        listed(list, letter, &[], &lines, String::clone);
    }
    if let Some(map) = list.map.clone() {
        let free = map.pairs().iter().filter(|pair| pair.2.is_none()).count();
        let past = map.tells_of_the_past() as usize;
        list.count("lists of 64 points", (map.points() == 64) as usize);
        list.count("lists of 1024 cells", (map.cells() == 1024) as usize);
        list.count("lists in which blockers tell of the past", past);
        list.count(
            "open pairs fewer than unblocked ones",
            (map.open_pairs().len() < free) as usize,
        );
    }
}

// Which cells and shapes are asked about.

fn points(list: &MapList) -> Vec<Cell> {
    let points = list.map.iter().flat_map(|map| map.rust().debug_points());
    points.map(|(point, _)| *point).collect()
}

/// A point, an occupied cell, or one of up to two columns and rows from it; on an empty map one about the origin.
fn aim(list: &mut MapList) -> Cell {
    let points = points(list);
    let mut cell = list.occupied_cell().unwrap_or(Cell::new(0, 0));
    if !points.is_empty() && list.random.below(2) == 0 {
        cell = list.random.pick(&points);
    }
    let [i, j] = [(); 2].map(|_| list.random.pick(&[-2, -1, -1, 0, 0, 1, 1, 2]));
    list.random.pick(&[cell, cell, cell.shifted(i, j)])
}

/// One of these coordinates, or both.
fn outlying(list: &mut MapList, coordinates: &[i64]) -> Cell {
    let near = aim(list);
    let [x, y] = [(); 2].map(|_| list.random.pick(coordinates));
    list.random
        .pick(&[Cell::new(x, y), Cell::new(near.x, y), Cell::new(x, near.y)])
}

const OUTERMOST: [i64; 6] = [
    EDGE + BEYOND,
    -EDGE - BEYOND,
    EDGE + BEYOND,
    -EDGE - BEYOND,
    EDGE + 1,
    1 - EDGE - BEYOND,
];
const TOO_FAR: [i64; 6] = [
    EDGE + BEYOND + 1,
    -EDGE - BEYOND - 1,
    i64::MAX,
    i64::MIN,
    1 << 32,
    -1 << 31,
];

/// Columns and rows that a key would mistake for others if it held them by their last bits.
fn mistakable(list: &mut MapList) -> Cell {
    let cell = aim(list);
    let (x, y) = list.random.pick(&[
        (-1, 1i64 << 32),
        (1, -1 << 32),
        (1 << 32, 0),
        (0, 1 << 32),
        (0, -1 << 32),
        (i64::MIN, 0),
        (0, i64::MIN),
    ]);
    let [u, v] = [(); 2].map(|_| {
        list.random
            .pick(&[i64::MIN, i64::MAX, -1 << 31, (1 << 31) - 1, 1 << 31])
    });
    let wrapped = Cell::new(cell.x.wrapping_add(x), cell.y.wrapping_add(y));
    list.random.pick(&[
        wrapped,
        wrapped,
        Cell::new(u, v),
        Cell::new(cell.x, v),
        Cell::new(u, cell.y),
    ])
}

/// In a cell or on its border, and half of them at its centre.
fn spot(list: &mut MapList, cell: Cell) -> Point {
    let size = list.map.as_ref().map_or(256.0, JudgedMap::size);
    let [u, v] = [(); 2].map(|_| {
        let any = list.random.unit().abs();
        list.random.pick(&[0.0, 0.25, 1.0, any])
    });
    let (u, v) = list
        .random
        .pick(&[(0.5, 0.5), (0.5, 0.5), (u, v), (u, 0.5)]);
    place(cell, size, u, v)
}

/// The map's own radius or twice it, as often as not.
fn length(list: &mut MapList) -> f64 {
    let (size, radius) = list.map.as_ref().map_or((256.0, 128.0), |map| {
        (map.size(), map.rust().agent_radius())
    });
    let any = 3.0 * list.random.unit().abs();
    let cells = list.random.pick(&[0.0, -0.0, 0.5, 1.0, any, any]);
    list.random
        .pick(&[radius, 2.0 * radius, size * cells, size * cells])
}

fn shaped(letter: char, [x, y, u, v, length]: [f64; 5]) -> Question {
    let (p, q) = (Point::new(x, y), Point::new(u, v));
    match letter {
        'p' => Question::Point(p),
        's' => Question::Square(p, length),
        'c' => Question::Circle(p, length),
        _ => Question::Sweep(p, q, length),
    }
}

/// A shape about what the map has; now and then one with the greatest number, a refused one, or hardly any length.
fn shape(list: &mut MapList, letter: char) {
    let (from, to) = (aim(list), aim(list));
    let (p, q, length) = (spot(list, from), spot(list, to), length(list));
    let mut numbers = [p.x, p.y, q.x, q.y, length];
    let at = list.random.pick(match letter {
        'p' => &[0, 1],
        'w' => &[0, 1, 2, 3, 4],
        _ => &[0, 1, 4],
    });
    match list.random.below(14) {
        0 => numbers[at] = MOST_QUERY,
        1 => {
            numbers[at] = list.random.pick(&[
                f64::NAN,
                f64::INFINITY,
                MOST_QUERY.next_up(),
                -MOST_QUERY.next_up(),
            ])
        }
        2 => numbers[4] = list.random.pick(&[-1.0, -5e-324, f64::NAN]),
        3 => (numbers[2], numbers[3]) = (p.x, p.y + 1e-9),
        _ => (),
    }
    ask(list, shaped(letter, numbers));
}

/// Some questions of each kind.
fn questions(list: &mut MapList) {
    for _ in 0..2 {
        let (near, far) = (aim(list), mistakable(list));
        look(list, near);
        look(list, far);
    }
    for letter in ['p', 's', 'c', 'w'] {
        for _ in 0..4 {
            shape(list, letter);
        }
    }
    for (question, n) in [(see as fn(&mut MapList, Cell), 4), (walk, 3)] {
        for _ in 0..n {
            let cell = aim(list);
            question(list, cell);
        }
        match list.random.below(4) {
            0 => {
                let cell = outlying(list, &TOO_FAR);
                question(list, cell);
            }
            1 => {
                let cell = outlying(list, &OUTERMOST);
                list.count("cells named beyond those of a batch", 1);
                question(list, cell);
            }
            _ => (),
        }
    }
}

fn round(list: &mut MapList) {
    questions(list);
    lists(list);
}

/// After some of the calls.
fn sometimes(list: &mut MapList, _: Step) {
    if list.random.below(3) == 0 {
        questions(list);
    }
}

// The runs.

/// Example 10, and other blockers that have a history.
fn histories(list: &mut MapList) {
    for (size, radius, batches) in [
        (256.0, 200.0, [vec![(0, 0, true)], vec![(-3, 2, true)]]),
        (
            2.0,
            5.0,
            [vec![(0, 0, true)], vec![(-3, -4, true), (-1, -3, true)]],
        ),
        (
            2.0,
            1.0,
            [vec![(0, 0, true), (5, 2, true)], vec![(4, 1, true)]],
        ),
        (
            256.0,
            0.0,
            [vec![(0, 0, true), (6, 6, true)], vec![(3, 3, true)]],
        ),
    ] {
        list.open(size, radius);
        for batch in batches {
            list.batch(&batch);
        }
        round(list);
        list.radius(radius);
        lists(list);
    }
}

/// No cell yet, and none any more.
fn empty_maps(list: &mut MapList) {
    for (size, radius) in [
        (256.0, 200.0),
        (0.1, -0.0),
        (LEAST_SIZE, 0.0),
        (MOST_SIZE, 1.0),
    ] {
        list.open(size, radius);
        round(list);
        list.batch(&[(0, 0, true), (3, 1, true)]);
        list.batch(&[(0, 0, false), (3, 1, false)]);
        round(list);
    }
}

/// After a refused opening there is no map, though the tables hold one.
fn refused_openings(list: &mut MapList) {
    for (size, radius) in [
        (0.0, 1.0),
        (f64::NAN, 1.0),
        (256.0, -1.0),
        (256.0, 16257.0),
        (MOST_SIZE.next_up(), 0.0),
        (256.0, f64::NAN),
    ] {
        list.open(1000.1, 512.3);
        list.batch(&[(0, 0, true), (4, 1, true)]);
        list.open(size, radius);
        round(list);
    }
}

/// As many points as there may be, and as many cells.
fn full_maps(list: &mut MapList) {
    for (size, radius) in [(256.0, 200.0), (1000.1, 377.7)] {
        list.open(size, radius);
        list.batch(&entries(islands(16), true));
        round(list);
        list.batch(&[(-9, 9, true)]);
        questions(list);
    }
    for size in [64.0, 0.1] {
        list.open(size, size / 2.0);
        let cells = block(7, 7).into_iter().map(|c| Cell::new(2 * c.x, 2 * c.y));
        list.batch(&entries(cells, true));
        list.radius(size);
        round(list);
    }
    list.open(256.0, 200.0);
    let all: Vec<Cell> = block(32, 32).into_iter().collect();
    for part in all.chunks(MOST_ENTRIES) {
        list.batch(&entries(part.iter().copied(), true));
    }
    round(list);
}

/// Cells in the last columns and rows that a batch may name; at the shift 64 their points lie as far out as a question may ask.
fn outermost_cells(list: &mut MapList) {
    for (size, radius) in [
        (256.0, 0.0),
        (256.0, 200.0),
        (256.0, 16256.0),
        (1000.1, 377.7),
        (0.1, 3.0),
        (MOST_SIZE, MOST_SIZE * 63.5),
    ] {
        list.open(size, radius);
        list.batch(&[
            (-EDGE, -EDGE, true),
            (-EDGE, EDGE, true),
            (0, EDGE, true),
            (EDGE, -EDGE, true),
            (EDGE, EDGE, true),
        ]);
        round(list);
        list.batch(&[
            (-EDGE, 1 - EDGE, true),
            (0, EDGE, false),
            (EDGE - 2, EDGE, true),
        ]);
        questions(list);
    }
}

/// A floor of a known kind, then changed a little.
fn laid_out(list: &mut MapList, yard: bool, layout: Layout, by: i64) {
    list.open_any(yard);
    list.batch(&entries(moved(layout, by, by), true));
    round(list);
    list.any_batch(Cell::new(0, 0), 3, 5);
    list.any_radius(yard);
    round(list);
}

fn floors(list: &mut MapList) {
    for i in 0..12 {
        let layout = match i / 2 {
            0 => block(4, 4),
            1 => racks(12, 3),
            2 => checkerboard(5, 4),
            3 => racks(20, 5),
            4 => scattered(&mut list.random, 5, 40),
            _ => scattered(&mut list.random, 8, 9),
        };
        let by = list.random.pick(&[0, -2, -7]);
        laid_out(list, i % 2 == 0, layout, by);
    }
}

/// Cells within each other's reach, so that points are blocked, and what is seen from every point.
fn tight_runs(list: &mut MapList) {
    for _ in 0..10 {
        let size = list.random.pick(&[0.1, 3.7, 256.0, 1000.1]);
        let cells = list.random.pick(&[0.78125, 1.0, 1.5, 1.7]);
        list.open(size, size * cells);
        let layout = scattered(&mut list.random, 4, 6);
        list.batch(&entries(moved(layout, -3, -3), true));
        list.any_batch(Cell::new(0, 0), 4, 3);
        round(list);
        for point in points(list) {
            see(list, point);
        }
    }
}

/// Whether the sweep between two cells' centres is free from the one and taken from the other.
fn one_way(map: &JudgedMap, p: Cell, q: Cell) -> bool {
    let (grid, width) = (map.rust().grid(), 2.0 * map.rust().agent_radius());
    let [p, q] = [p, q].map(|cell| cell.center_point(map.size()));
    grid.is_sweep_occupied(p, q, width).is_some() != grid.is_sweep_occupied(q, p, width).is_some()
}

/// Cells that would see another point if the sweep began at the point's end, or would have another neighbour.
fn one_way_runs(list: &mut MapList) {
    for i in 0..12 {
        let size = [2.0, 0.1, 256.0, 1000.1][i % 4];
        let cells = list.random.pick(&[0.5, 0.78125, 1.0, 1.5]);
        list.open(size, size * cells);
        let layout = scattered(&mut list.random, 5, 9);
        list.batch(&entries(moved(layout, -4, -4), true));
        let Some(map) = list.map.clone() else {
            continue;
        };
        let about = moved(block(19, 19), -9, -9);
        let turned = |cell: &&Cell| {
            let mut free = map.rust().iter_points();
            let known = map.rust().debug_points().contains_key(cell);
            !known
                && free
                    .any(|(p, s)| cell.in_visible_quadrant_of(p, *s) && one_way(&map, **cell, *p))
        };
        for cell in about.iter().filter(turned).take(4) {
            see(list, *cell);
            list.count("v that a sweep from the point would answer otherwise", 1);
        }
        let turned = |cell: &&Cell| {
            let free = map.neighbours(**cell).is_ok_and(|found| !found.is_empty());
            let eight = secondary_cardinal_directions();
            free && eight
                .iter()
                .any(|[i, j]| one_way(&map, **cell, cell.shifted(*i, *j)))
        };
        for cell in about.iter().filter(turned).take(4) {
            walk(list, *cell);
            list.count(
                "n that a sweep from the neighbour would answer otherwise",
                1,
            );
        }
    }
}

/// At no radius too.
fn small_runs(list: &mut MapList) {
    for i in 0..20 {
        let (extent, most) = list.random.pick(&[(1, 5), (2, 4), (3, 4), (5, 3), (9, 3)]);
        list.run(i % 2 == 0, extent, most, 3);
        if i % 6 == 0 {
            list.radius(0.0);
        }
        round(list);
    }
}

/// The circle touches the cell's side, and then reaches over it.
fn example_9(list: &mut MapList) {
    list.open(256.0, 128.0);
    list.batch(&[(0, 0, true)]);
    let cell = Cell::new(0, 0);
    for (radius, found) in [(128.0, None), (129.0, Some(cell))] {
        let circle = Question::Circle(Point::new(-128.0, 128.0), radius);
        let map = list.map.as_ref().expect("a map");
        assert_eq!(map.ask(&circle), Ok(found));
        ask(list, circle);
    }
}

/// What each question or list must have.
fn needed_of(letters: &[char], each: &[(&str, usize)]) -> Vec<(String, usize)> {
    letters
        .iter()
        .flat_map(|letter| {
            each.iter()
                .map(move |(way, least)| (format!("{letter} {way}"), *least))
        })
        .collect()
}

pub fn vectors() -> Result<Vectors, Failure> {
    let mut list = MapList::new(77, sometimes);
    histories(&mut list);
    empty_maps(&mut list);
    refused_openings(&mut list);
    full_maps(&mut list);
    outermost_cells(&mut list);
    floors(&mut list);
    tight_runs(&mut list);
    one_way_runs(&mut list);
    small_runs(&mut list);
    example_9(&mut list);
    let mut needed = needed_of(&QUESTIONS, &OF_A_QUESTION);
    needed.extend(needed_of(&LISTS, &OF_A_LIST));
    needed.extend(needed_of(&['v', 'n'], &[("refused with 5", 10)]));
    needed.extend(needed_of(&['p', 's', 'c', 'w'], &[("refused with 8", 10)]));
    needed.extend(NEEDED.map(|(name, least)| (name.into(), least)));
    let needed: Vec<(&str, usize)> = needed
        .iter()
        .map(|(name, least)| (&name[..], *least))
        .collect();
    list.finish(&needed, [400_000, 800_000])
}
