//! Opening a map, reading a map file, whether a cell is occupied, the four shapes, and a map's lists, beside the Rust's, which is measured twice, with hash maps as published and with ordered maps: in
//! one run, each side the best of many rounds. Every answer is compared with the ordered Rust's first.
use crate::map::{Lists, ProvedMap};
use crate::measure::{best, floor, row, Tell, RADIUS, SIZE};
use oracle::map_files::map_file;
use oracle::occupancy::Cell;
use oracle::program::Failure;
use oracle::question::{Entry, Floor, Question};
use oracle::{key, Random};
use std::hint::black_box;

const POINTS: [usize; 3] = [5, 20, 64];
const TIMES: usize = 200;
const ASKED: usize = 2_000;
const FILES: usize = 20;

/// From the centres of the cells, the shapes one after another.
fn questions(asked: &[Cell]) -> Vec<Question> {
    let centre = |i: usize| asked[i % asked.len()].center_point(SIZE);
    let question = |i| match i % 4 {
        0 => Question::Point(centre(i)),
        1 => Question::Square(centre(i), 300.0),
        2 => Question::Circle(centre(i), 200.0),
        _ => Question::Sweep(centre(i), centre(i + 1), 300.0),
    };
    (0..asked.len()).map(question).collect()
}

/// What is measured, in the table's order.
const CALLS: [&str; 8] = [
    "open",
    "read a map file",
    "is occupied",
    "the four shapes in turn",
    "occupied cells",
    "corner cells",
    "unblocked points",
    "open pairs",
];

/// The Rust's map over one kind of maps.
macro_rules! rust {
    ($module:ident) => {
        mod $module {
            use super::*;
            use oracle::$module::occupancy::{Cell as Place, Grid, SparseGrid, Visibility};

            pub type Map = Visibility<SparseGrid>;

            fn open() -> Map {
                Visibility::new(SparseGrid::new(SIZE), RADIUS)
            }

            pub fn map(entries: &[Entry]) -> Map {
                let mut map = open();
                let cells = entries.iter().map(|&(x, y, full)| (Place::new(x, y), full));
                map.change_cells(&cells.collect());
                map
            }

            /// All that an iterator gives, each looked at.
            fn all<T>(list: impl Iterator<Item = T>) {
                list.for_each(|one| drop(black_box(one)));
            }

            pub fn times(map: &Map, entries: &[Entry], asked: &[Cell]) -> [f64; 8] {
                let questions = questions(asked);
                let asked: Vec<Place> = asked.iter().map(|c| Place::new(c.x, c.y)).collect();
                let many = |list: &dyn Fn()| best(TIMES, || (0..TIMES).for_each(|_| list()));
                [
                    many(&|| drop(black_box(open()))),
                    best(FILES, || {
                        for _ in 0..FILES {
                            black_box(self::map(black_box(entries)));
                        }
                    }),
                    best(ASKED, || {
                        for c in &asked {
                            black_box(map.grid().is_occupied(c));
                        }
                    }),
                    best(ASKED, || {
                        for question in &questions {
                            black_box(map.grid().ask(black_box(question)));
                        }
                    }),
                    many(&|| all(map.grid().occupied_cells())),
                    many(&|| all(map.grid().corners())),
                    many(&|| all(map.iter_points())),
                    many(&|| all(map.iter_edges())),
                ]
            }
        }
    };
}

rust!(ordered);
rust!(published);

fn compare(map: &ProvedMap, rust: &ordered::Map, asked: &[Cell], lists: &mut Lists) {
    use oracle::ordered::occupancy::Grid;
    for c in asked {
        assert_eq!(map.is_occupied(c), rust.grid().is_occupied(c));
    }
    for question in questions(asked) {
        assert_eq!(map.found(&question), rust.grid().found(&question));
    }
    let n = map.occupied_cells(lists);
    assert!(rust
        .grid()
        .occupied_cells()
        .map(key)
        .eq(lists.keys[..n].iter().copied()));
    let n = map.corner_cells(lists);
    let corners = rust.grid().corners().map(|(c, s)| (key(c), s.0));
    assert!(corners.eq(lists.keys.into_iter().zip(lists.statuses).take(n)));
    let n = map.free_points(lists);
    assert!(rust
        .iter_points()
        .map(|(c, _)| key(c))
        .eq(lists.keys[..n].iter().copied()));
    let n = map.open_pairs(lists);
    let pairs = rust.iter_edges().map(|(p, q)| (key(p), key(q)));
    assert!(pairs.eq(lists.lesser.into_iter().zip(lists.greater).take(n)));
}

fn proved(map: &ProvedMap, file: &[u8], asked: &[Cell], lists: &mut Lists) -> [f64; 8] {
    let mut many = |list: fn(&ProvedMap, &mut Lists) -> usize| {
        best(TIMES, || {
            for _ in 0..TIMES {
                black_box(list(map, lists));
            }
        })
    };
    let listed = [
        ProvedMap::occupied_cells,
        ProvedMap::corner_cells,
        ProvedMap::free_points,
        ProvedMap::open_pairs,
    ]
    .map(&mut many);
    let mut again = map.clone();
    let open = best(TIMES, || {
        for _ in 0..TIMES {
            assert_eq!(black_box(again.reopen()), 0);
        }
    });
    let read = best(FILES, || {
        for _ in 0..FILES {
            assert_eq!(black_box(again.read(black_box(file))), 0);
        }
    });
    assert!(again.same_tables(map), "what was read");
    let occupied = best(ASKED, || {
        for c in asked {
            black_box(map.is_occupied(c));
        }
    });
    let questions = questions(asked);
    let shapes = best(ASKED, || {
        for question in &questions {
            black_box(map.found(black_box(question)));
        }
    });
    let [cells, corners, points, pairs] = listed;
    [open, read, occupied, shapes, cells, corners, points, pairs]
}

pub fn rows(tell: Tell) -> Result<(), Failure> {
    let (mut random, mut lists) = (Random::default(), Lists::default());
    for points in POINTS {
        let floor = floor(&mut random, points);
        let mut map = ProvedMap::open(SIZE, RADIUS).expect("an opening");
        assert_eq!(map.change_cells(&ProvedMap::batch(&floor)), 0);
        let extent = 6 + points as u64 / 4;
        let cell = |_| [(); 2].map(|_| random.below(extent) as i64 - 2);
        let asked: Vec<Cell> = (0..ASKED).map(cell).map(Cell::from).collect();
        let (hashed, ordered) = (published::map(&floor), ordered::map(&floor));
        compare(&map, &ordered, &asked, &mut lists);
        let file = map_file(SIZE, RADIUS, &[floor.clone()]);
        let ours = proved(&map, &file, &asked, &mut lists);
        let theirs = [
            published::times(&hashed, &floor, &asked),
            ordered::times(&ordered, &floor, &asked),
        ];
        let on = format!("{points} points, {} cells", floor.len());
        for (i, call) in CALLS.into_iter().enumerate() {
            tell(row(call, &on, ours[i], &theirs.map(|side| side[i])))?;
        }
    }
    Ok(())
}
