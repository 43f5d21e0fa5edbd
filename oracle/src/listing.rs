//! The listing of a map file (RULES 6), over the Rust with ordered maps.
use crate::judged::{bad_size, MOST_ENTRIES};
use crate::judged_map::JudgedMap;
use crate::map_files::{BATCH, END, ENTRY_BYTES, RADIUS, SIZE};
use crate::occupancy::Cell;
use crate::question::Entry;
use crate::vectors::{pair_line, point_line};
use std::collections::BTreeSet;

/// A refusal's number, and the field's.
pub type Refused = (u64, usize);

struct Fields<'a> {
    rest: &'a [u8],
    number: usize,
}

fn float(value: &[u8]) -> f64 {
    f64::from_bits(value.iter().fold(0, |n, byte| n << 8 | *byte as u64))
}

fn entry(bytes: &[u8]) -> Entry {
    let whole = |from: usize| {
        let four = bytes[from..from + 4].try_into().expect("four bytes");
        i32::from_be_bytes(four) as i64
    };
    (whole(0), whole(4), bytes[8] == 1)
}

impl<'a> Fields<'a> {
    /// The next field, one of the tags that may stand here: its tag before its length, its length before its value.
    fn judge(&self, placed: &[u8]) -> Result<(u8, &'a [u8]), u64> {
        let [tag, behind @ ..] = self.rest else {
            return Err(10);
        };
        let (true, [high, low, behind @ ..]) = (placed.contains(tag), behind) else {
            return Err(10);
        };
        let length = *high as usize * 256 + *low as usize;
        if *tag == BATCH && length > MOST_ENTRIES * ENTRY_BYTES {
            return Err(3);
        }
        let fits = match *tag {
            BATCH => length % ENTRY_BYTES == 0,
            END => length == 0,
            _ => length == 8,
        };
        let value = behind.get(..length).filter(|_| fits).ok_or(10u64)?;
        let flags = value.iter().skip(8).step_by(ENTRY_BYTES);
        if *tag == BATCH && flags.clone().any(|flag| *flag > 1) {
            return Err(10);
        }
        Ok((*tag, value))
    }

    /// Takes the next field, once `take` accepts its value.
    fn take<T>(
        &mut self,
        placed: &[u8],
        take: impl FnOnce(u8, &'a [u8]) -> Result<T, u64>,
    ) -> Result<T, Refused> {
        let at = self.number;
        let (tag, value) = self.judge(placed).map_err(|refusal| (refusal, at))?;
        let taken = take(tag, value).map_err(|refusal| (refusal, at))?;
        self.rest = &self.rest[3 + value.len()..];
        self.number += 1;
        Ok(taken)
    }
}

fn size(value: &[u8]) -> Result<f64, u64> {
    let size = float(value);
    if bad_size(size) {
        return Err(1);
    }
    Ok(size)
}

/// The map, or the first refusal with its field.
pub fn read(bytes: &[u8]) -> Result<JudgedMap, Refused> {
    let mut fields = Fields {
        rest: bytes,
        number: 0,
    };
    let size = fields.take(&[SIZE], |_, value| size(value))?;
    let mut map = fields.take(&[RADIUS], |_, value| JudgedMap::open(size, float(value)))?;
    let mut change = |tag: u8, value: &[u8]| {
        let batch: Vec<Entry> = value.chunks(ENTRY_BYTES).map(entry).collect();
        if tag == BATCH {
            map.change(&batch)?;
        }
        Ok(tag)
    };
    while fields.take(&[BATCH, END], &mut change)? == BATCH {}
    if !fields.rest.is_empty() {
        return Err((10, fields.number));
    }
    Ok(map)
}

/// How many sets of cells there are that shared sides join: each is emptied from any of its cells.
fn blocks(map: &JudgedMap) -> usize {
    let mut left: BTreeSet<Cell> = map.occupied_cells().into_iter().collect();
    let mut count = 0;
    while let Some(cell) = left.pop_first() {
        count += 1;
        let mut edge = vec![cell];
        while let Some(cell) = edge.pop() {
            let beside = [(-1, 0), (1, 0), (0, -1), (0, 1)].map(|(i, j)| cell.shifted(i, j));
            edge.extend(beside.into_iter().filter(|cell| left.remove(cell)));
        }
    }
    count
}

fn of_map(map: &JudgedMap) -> String {
    let pairs = map.pairs();
    let counts = [
        ("cells", map.cells()),
        ("corners", map.corners().len()),
        ("points", map.points()),
        ("edges", pairs.len()),
        ("open", map.open_pairs().len()),
        ("blocks", blocks(map)),
    ];
    let first = counts
        .map(|(name, count)| format!("{name} {count}"))
        .join(" ");
    let points = map.rust().debug_points().iter();
    let points = points.map(|(p, (blocker, status))| point_line(p, *status, *blocker));
    let pairs = pairs
        .into_iter()
        .map(|(p, q, blocker)| pair_line(p, q, blocker));
    let lines = [first].into_iter().chain(points).chain(pairs);
    lines.map(|line| line + "\n").collect()
}

/// What the program prints for these bytes.
pub fn listing(bytes: &[u8]) -> String {
    match read(bytes) {
        Ok(map) => of_map(&map),
        Err((refusal, field)) => format!("refused {refusal} at {field}\n"),
    }
}
