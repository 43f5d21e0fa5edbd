//! Map files as bytes (RULES 5): good ones, at the limits, and damaged ones.
use crate::judged::MOST_COORDINATE;
use crate::layouts::{block, checkerboard, entries, islands, moved, racks, scattered, Layout};
use crate::question::Entry;
use crate::runs::{batch, radius, SIZES};
use crate::Random;

pub const SIZE: u8 = 1;
pub const RADIUS: u8 = 2;
pub const BATCH: u8 = 3;
pub const END: u8 = 255;
pub const ENTRY_BYTES: usize = 9;

pub type File = Vec<u8>;

/// A tag, a length in two bytes, and so many bytes of a value.
pub fn field(tag: u8, value: &[u8]) -> File {
    let length = (value.len() as u16).to_be_bytes();
    [&[tag][..], &length, value].concat()
}

/// x and y as i32, and 1 or 0.
pub fn batch_field(batch: &[Entry]) -> File {
    let entry = |(x, y, occupied): &Entry| {
        let [x, y] = [x, y].map(|n| (*n as i32).to_be_bytes());
        [&x[..], &y, &[*occupied as u8]].concat()
    };
    field(BATCH, &batch.iter().flat_map(entry).collect::<Vec<u8>>())
}

/// What stands before the first batch.
pub fn opening(size: f64, radius: f64) -> File {
    let [size, radius] = [size, radius].map(|x| x.to_bits().to_be_bytes());
    [field(SIZE, &size), field(RADIUS, &radius)].concat()
}

pub fn map_file(size: f64, radius: f64, batches: &[Vec<Entry>]) -> File {
    let mut file = opening(size, radius);
    batches
        .iter()
        .for_each(|batch| file.extend(batch_field(batch)));
    file.extend(field(END, &[]));
    file
}

/// A floor in batches of at most 256 cells.
pub fn floor(size: f64, radius: f64, cells: Layout) -> File {
    let cells = entries(cells, true);
    let batches: Vec<Vec<Entry>> = cells.chunks(256).map(<[Entry]>::to_vec).collect();
    map_file(size, radius, &batches)
}

/// Cells to and fro about the origin, or at one of the bounds.
pub fn any_map(random: &mut Random) -> File {
    let size = match random.below(2) {
        0 => random.pick(&SIZES),
        _ => 2f64.powi(random.below(10) as i32 + 1),
    };
    let any = radius(random, size);
    let radius = if random.below(3) == 0 {
        any
    } else {
        any.floor()
    };
    let far = random.pick(&[0, 0, 0, 0, MOST_COORDINATE, -MOST_COORDINATE]);
    let (extent, most) = (1 + random.below(7), 1 + random.below(14));
    let batches: Vec<Vec<Entry>> = (0..random.below(5))
        .map(|_| batch(random, extent, most))
        .map(|batch| batch.into_iter().map(|(x, y, o)| (x + far, y - far, o)))
        .map(|batch| batch.filter(|(x, y, _)| x.abs().max(y.abs()) <= MOST_COORDINATE))
        .map(Iterator::collect)
        .collect();
    map_file(size, radius, &batches)
}

/// Floors of every kind of layout.
pub fn any_floor(random: &mut Random) -> File {
    let n = random.below(60) as i64 + 1;
    let (columns, rows) = (1 + n % 8, 1 + n / 8);
    let width = 2 + random.below(12);
    let cells = match random.below(5) {
        0 => racks(n as usize, 1 + rows),
        1 => scattered(random, (n as usize % 12).min(width as usize) + 1, width),
        2 => block(columns * 3, rows),
        3 => checkerboard(columns.min(3), rows.min(3)),
        _ => islands(1 + n % 16),
    };
    let [x, y] = [(); 2].map(|_| random.below(9) as i64 - 4);
    floor(
        256.0,
        random.pick(&[0.0, 128.0, 129.0, 200.0]),
        moved(cells, x, y),
    )
}

/// One of the ways in which a file is spoilt: cut, a byte altered, left out, put in or put behind, a field twice, two changed about.
pub fn damaged(random: &mut Random, file: &File) -> File {
    let (mut file, at) = (file.clone(), random.below(file.len() as u64) as usize);
    let (byte, other) = (random.next() as u8, random.pick(&[0, 1, 2, 3, 9, 255]));
    match random.below(9) {
        0 => file.truncate(at),
        1 => file[at] = byte,
        2 => file[at] = other,
        3 => file[at] ^= 1 << random.below(8),
        4 => drop(file.remove(at)),
        5 => file.insert(at, other),
        6 => file.push(other),
        7 => file.extend_from_within(at..),
        _ => file.rotate_left(at),
    }
    file
}

/// Tags, lengths and flags where they stand, altered one at a time.
pub fn altered_heads(file: &File) -> Vec<File> {
    let mut files = Vec::new();
    let mut at = 0;
    while at + 3 <= file.len() {
        let length = file[at + 1] as usize * 256 + file[at + 2] as usize;
        let heads = [0, 1, 2, 3, 4, 254, 255].map(|tag| [tag, file[at + 1], file[at + 2]]);
        let lengths = [
            0,
            1,
            7,
            8,
            9,
            10,
            18,
            2304,
            2305,
            2313,
            65535,
            length as u16 + 1,
        ];
        let lengths = lengths
            .map(u16::to_be_bytes)
            .map(|[high, low]| [file[at], high, low]);
        for head in heads.into_iter().chain(lengths) {
            let mut other = file.clone();
            other.splice(at..at + 3, head);
            files.push(other);
        }
        at += 3 + length;
    }
    files
}
