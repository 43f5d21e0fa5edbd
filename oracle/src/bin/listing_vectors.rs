//! Writes the map files that the program `listing_vectors` lists, `data/0000` and so on, and their listings as the Rust with ordered maps has them, `stdout`,
//! in the folder that is its first argument. The example maps come first, from the folder that is its second. The list is the
//! same on every run. Standard error tells how many there are of each kind; where a kind is missing nothing is written.
//!
//! In `stdout` an empty line follows each listing. Behind them is told what the program makes of a folder in place of a file, and of an output that cannot be written.
use oracle::judged::{LEAST_SIZE, MOST_COORDINATE, MOST_SIZE};
use oracle::layouts::{block, entries, hook, islands, moved, Layout};
use oracle::listing::{listing, read};
use oracle::map_files::{
    altered_heads, any_floor, any_map, batch_field, damaged, field, floor, map_file, opening, File,
    BATCH, END,
};
use oracle::occupancy::Cell;
use oracle::program::{cannot, is_folder, note, read as read_file, say, write, Failure, Program};
use oracle::question::Entry;
use oracle::vectors::{enough, tell};
use oracle::Random;
use std::collections::BTreeMap;
use std::path::{Path, PathBuf};
use std::process::ExitCode;

const PROGRAM: Program<2> = Program {
    name: "listing_vectors",
    package: "oracle",
    does: "Writes map files, and their listings as the Rust with ordered maps has them:\n\
           what crate listing_vectors replays.",
    arguments: [
        (
            "FOLDER",
            "where `stdout` and the files of `data` are written, in place of those there",
        ),
        (
            "EXAMPLES",
            "the folder of the example maps, which come first",
        ),
    ],
    example: ["crates/listing_vectors", "examples"],
};

/// What the list must have at least.
const NEEDED: [(&str, usize); 14] = [
    ("files", 1000),
    ("maps", 250),
    ("maps with blocked pairs", 30),
    ("maps of 64 points", 1),
    ("maps of 1024 cells", 1),
    ("refused with 1", 10),
    ("refused with 2", 10),
    ("refused with 3", 10),
    ("refused with 4", 10),
    ("refused with 5", 10),
    ("refused with 6", 1),
    ("refused with 7", 1),
    ("refused with 10", 200),
    ("refused at 5", 1),
];

#[derive(Default)]
struct List {
    files: Vec<File>,
    listings: String,
    counts: BTreeMap<String, usize>,
}

impl List {
    fn count(&mut self, name: String) {
        *self.counts.entry(name).or_default() += 1;
    }

    fn push(&mut self, file: &File) {
        let text = listing(file);
        self.files.push(file.clone());
        self.listings += &text;
        self.listings += "\n";
        self.count("files".into());
        match read(file) {
            Err((refusal, field)) => {
                self.count(format!("refused with {refusal}"));
                self.count(format!("refused at {}", field.min(5)));
            }
            Ok(map) => {
                self.count("maps".into());
                if map.pairs().iter().any(|(_, _, blocker)| blocker.is_some()) {
                    self.count("maps with blocked pairs".into());
                }
                if map.points() == 64 {
                    self.count("maps of 64 points".into());
                }
                if map.cells() == 1024 {
                    self.count("maps of 1024 cells".into());
                }
            }
        }
    }
}

/// What a folder has, by name.
fn paths(folder: &str) -> Result<Vec<PathBuf>, Failure> {
    let entries = std::fs::read_dir(folder).and_then(Iterator::collect::<Result<Vec<_>, _>>);
    let entries = entries.map_err(|error| cannot(folder, "be read", error))?;
    let mut paths: Vec<PathBuf> = entries.iter().map(|entry| entry.path()).collect();
    paths.sort();
    Ok(paths)
}

fn examples(list: &mut List, folder: &str) -> Result<(), Failure> {
    for path in paths(folder)? {
        if path.extension().is_some_and(|end| end == "map") {
            list.push(&read_file(path)?);
        }
    }
    Ok(())
}

/// Cell size and radius at their bounds and one step beyond; values that are no numbers.
fn openings(list: &mut List) {
    let sizes = [LEAST_SIZE, MOST_SIZE, 256.0];
    let beyond = [LEAST_SIZE.next_down(), MOST_SIZE.next_up(), 0.0, -256.0];
    let odd = [
        f64::NAN,
        -f64::NAN,
        f64::INFINITY,
        -f64::INFINITY,
        f64::from_bits(1),
    ];
    for size in sizes.into_iter().chain(beyond).chain(odd) {
        let radii = [0.0, -0.0, 63.5 * size, (63.5 * size).next_up(), 1e308, -1.0];
        for radius in radii.into_iter().chain(odd) {
            list.push(&map_file(size, radius, &[vec![(0, 0, true), (2, 1, true)]]));
        }
    }
    // a bad cell size is told even if nothing follows
    list.push(&opening(0.0, 0.0)[..11].to_vec());
}

/// Batches at the limits, in order or not.
fn batches(list: &mut List) {
    const FAR: i64 = MOST_COORDINATE;
    let row = |n: i64| entries(block(n, 1), true);
    let many = |n: usize| field(BATCH, &vec![0; n]);
    let open = opening(256.0, 200.0);
    let far = [
        -FAR - 1,
        -FAR,
        FAR,
        FAR + 1,
        i32::MIN as i64,
        i32::MAX as i64,
    ];
    for batch in [row(0), row(1), row(255), row(256), row(257)] {
        list.push(&map_file(256.0, 200.0, &[batch]));
    }
    for length in [8, 10, 2303, 2304, 2305, 2313, 65529, 65535] {
        list.push(&[&open[..], &many(length), &field(END, &[])].concat());
        // the length alone is judged before the value
        list.push(&[&open[..], &many(length)[..3]].concat());
        list.push(&many(length)[..3].to_vec());
    }
    for z in far {
        list.push(&map_file(256.0, 0.0, &[vec![(z, 0, true)]]));
        list.push(&map_file(256.0, 0.0, &[vec![(-1, z, true), (5, 5, true)]]));
        list.push(&map_file(256.0, 0.0, &[vec![(5, 5, true), (4, z, true)]]));
    }
    let pairs: [[Entry; 2]; 4] = [
        [(0, 0, true), (0, 0, true)],
        [(0, 1, true), (0, 0, true)],
        [(1, -9, true), (0, 9, true)],
        [(0, -1, true), (-1, 1, false)],
    ];
    for pair in pairs {
        list.push(&map_file(
            256.0,
            128.0,
            &[vec![(0, 0, true)], pair.to_vec()],
        ));
    }
    list.push(&map_file(256.0, 128.0, &vec![vec![]; 300]));
}

/// Room for cells and points: full, and one more.
fn room(list: &mut List) {
    let cell = |x: i64, y: i64| Layout::from([Cell::new(x, y)]);
    let with = |cells: Layout, more: Layout| cells.into_iter().chain(more).collect::<Layout>();
    list.push(&floor(256.0, 128.0, block(32, 32)));
    list.push(&floor(256.0, 128.0, with(block(32, 32), cell(40, 40))));
    let points = moved(islands(16), -9, -9);
    let five = with(points.clone(), Layout::from(hook(Cell::new(-9, -9))));
    list.push(&floor(256.0, 128.0, points.clone()));
    list.push(&floor(256.0, 128.0, five));
    list.push(&floor(256.0, 128.0, with(points, cell(90, 90))));
}

/// Fields out of their places.
fn places(list: &mut List) {
    let (open, end) = (opening(256.0, 200.0), field(END, &[]));
    let (size, radius) = (&open[..11], &open[11..]);
    let batch = batch_field(&[(0, 0, true)]);
    let parts = [size, radius, &batch[..], &end];
    for first in parts {
        list.push(&first.to_vec());
        for second in parts {
            list.push(&[first, second].concat());
            for third in parts {
                list.push(&[first, second, third, &end].concat());
                list.push(&[size, radius, first, second, third].concat());
            }
        }
    }
}

/// The list without the examples.
fn others(list: &mut List) {
    openings(list);
    batches(list);
    room(list);
    places(list);
    let batches = [vec![(0, 0, true)], vec![(-3, 2, true), (1, 0, true)]];
    let small = map_file(256.0, 200.0, &batches);
    for end in 0..small.len() {
        list.push(&small[..end].to_vec());
    }
    altered_heads(&small)
        .iter()
        .for_each(|file| list.push(file));
    let mut random = Random::seeded(8);
    for _ in 0..220 {
        list.push(&any_map(&mut random));
        let file = any_floor(&mut random);
        list.push(&damaged(&mut random, &file));
    }
    for _ in 0..60 {
        list.push(&any_floor(&mut random));
        let file = any_map(&mut random);
        list.push(&damaged(&mut random, &file));
    }
}

/// A folder for the files alone: those of an earlier list are removed from it, and anything else is left alone and told.
fn clear(data: &str) -> Result<(), Failure> {
    if !Path::new(data).is_dir() {
        std::fs::create_dir(data).map_err(|error| cannot(data, "be made", error))?;
    }
    let is_number = |path: &Path| {
        let name = path.file_name().unwrap_or_default().to_string_lossy();
        name.bytes().all(|byte| byte.is_ascii_digit())
    };
    let old = paths(data)?;
    if let Some(other) = old.iter().find(|path| !is_number(path)) {
        let other = other.display();
        return Err(Failure::Work(format!(
            "{other} is no file of the list: nothing is written"
        )));
    }
    old.iter().try_for_each(|path| {
        std::fs::remove_file(path).map_err(|error| cannot(path.display(), "be removed", error))
    })
}

fn list([folder, example_maps]: [String; 2]) -> Result<(), Failure> {
    is_folder(&folder)?;
    let mut list = List::default();
    examples(&mut list, &example_maps)?;
    others(&mut list);
    let bytes: usize = list.files.iter().map(Vec::len).sum();
    tell(&list.counts);
    note(format!(
        "{bytes:6} bytes of files, {} of listings",
        list.listings.len()
    ));
    enough(&list.counts, &NEEDED)?;
    let data = format!("{folder}/data");
    clear(&data)?;
    for (n, file) in list.files.iter().enumerate() {
        write(format!("{data}/{n:04}"), file)?;
    }
    let told = list.listings + "unread\n\nunwritten\n";
    write(format!("{folder}/stdout"), told)?;
    let count = list.files.len();
    say(format!(
        "{count} map files in {data}, with their listings in {folder}/stdout"
    ))
}

fn main() -> ExitCode {
    PROGRAM.run(list)
}
