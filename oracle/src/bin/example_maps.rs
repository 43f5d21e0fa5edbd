//! Writes the example map files, and the listing of each as the Rust with ordered maps has it, into the folder that is its one argument.
use oracle::layouts::{block, entries, moved, Layout};
use oracle::listing::listing;
use oracle::map_files::{floor, map_file, File};
use oracle::program::{is_folder, say, write, Program};
use oracle::question::Entry;
use std::process::ExitCode;

const PROGRAM: Program<1> = Program {
    name: "example_maps",
    package: "oracle",
    does: "Writes the example maps, and the listing of each as the Rust with ordered maps has it.",
    arguments: [(
        "FOLDER",
        "the folder that NAME.map and NAME.txt are written to",
    )],
    example: ["examples"],
};

const SIZE: f64 = 256.0;

/// Two cells deep and eight long, from a column on.
fn rack(column: i64) -> Layout {
    moved(block(2, 8), column, 0)
}

/// Sixteen blocks of 64 cells: 1,024 cells and 64 points.
fn full() -> Layout {
    let places = (0..16).map(|i| (i / 4 * 12 - 24, i % 4 * 12 - 24));
    places.flat_map(|(x, y)| moved(block(8, 8), x, y)).collect()
}

/// Two racks; the aisle between them is closed at one end, then opened again while the other is closed.
fn closed_aisle() -> Vec<Vec<Entry>> {
    let racks: Layout = rack(0).into_iter().chain(rack(5)).collect();
    let end = |row: i64| moved(block(3, 1), 2, row);
    let other = entries(end(0), true)
        .into_iter()
        .zip(entries(end(7), false));
    vec![
        entries(racks, true),
        entries(end(7), true),
        other.flat_map(|(low, high)| [low, high]).collect(),
    ]
}

fn files() -> [(&'static str, File); 8] {
    let aisle = rack(0).into_iter().chain(rack(4)).collect();
    let twice: Vec<Entry> = vec![(0, 0, true), (3, 1, true), (3, 1, false)];
    let mut cut = floor(SIZE, 200.0, rack(0));
    cut.truncate(cut.len() - 50);
    [
        ("one_cell", floor(SIZE, 128.0, block(1, 1))),
        ("rack", floor(SIZE, 200.0, rack(0))),
        ("aisle", floor(SIZE, 200.0, aisle)),
        ("closed_aisle", map_file(SIZE, 200.0, &closed_aisle())),
        (
            "example_10",
            map_file(SIZE, 200.0, &[vec![(0, 0, true)], vec![(-3, 2, true)]]),
        ),
        ("full_floor", floor(SIZE, 128.0, full())),
        (
            "refused",
            map_file(SIZE, 200.0, &[vec![(0, 0, true)], twice]),
        ),
        ("damaged", cut),
    ]
}

fn main() -> ExitCode {
    PROGRAM.run(|[folder]| {
        is_folder(&folder)?;
        let files = files();
        for (name, file) in &files {
            write(format!("{folder}/{name}.map"), file)?;
            write(format!("{folder}/{name}.txt"), listing(file))?;
        }
        say(format!(
            "{} maps with their listings in {folder}",
            files.len()
        ))
    })
}
