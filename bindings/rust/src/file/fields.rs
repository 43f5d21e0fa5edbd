//! The fields of a map file as bytes (RULES 5.1).
use crate::Cell;

/// The tags.
pub const CELL_SIZE: u8 = 0x01;
pub const RADIUS: u8 = 0x02;
pub const BATCH: u8 = 0x03;
pub const END: u8 = 0xff;

/// The most entries of a batch.
pub const ENTRIES: usize = 256;
/// The bytes of an entry.
pub const ENTRY: usize = 9;

/// The whole fields of a file, tag and value, one after another. What is left is the rest.
pub struct Fields<'a>(pub &'a [u8]);

impl<'a> Iterator for Fields<'a> {
    type Item = (u8, &'a [u8]);

    fn next(&mut self) -> Option<Self::Item> {
        let (&[tag, high, low], rest) = self.0.split_first_chunk()?;
        let length = u16::from_be_bytes([high, low]);
        let (value, rest) = rest.split_at_checked(length.into())?;
        self.0 = rest;
        Some((tag, value))
    }
}

/// An entry of a batch; the last byte is 0 for free, 1 for occupied.
pub fn entry(bytes: &[u8]) -> Option<(Cell, u8)> {
    let (x, rest) = bytes.split_first_chunk()?;
    let (y, rest) = rest.split_first_chunk()?;
    let number = |bytes: &[u8; 4]| i32::from_be_bytes(*bytes).into();
    Some((Cell::new(number(x), number(y)), *rest.first()?))
}

/// The entries of a batch.
pub fn entries(value: &[u8]) -> Vec<(Cell, u8)> {
    value.chunks_exact(ENTRY).filter_map(entry).collect()
}

/// A cell size or radius.
pub fn float(value: &[u8]) -> Option<f64> {
    Some(f64::from_be_bytes(value.try_into().ok()?))
}

/// A field's bytes. No value is longer than a batch's.
pub fn field(tag: u8, value: &[u8]) -> Vec<u8> {
    let length = value.len() as u16;
    [&[tag], &length.to_be_bytes()[..], value].concat()
}

/// The bytes of a batch that makes these cells occupied, which are cells of a map.
pub fn occupying(cells: &[Cell]) -> Vec<u8> {
    let bytes = |cell: &Cell| {
        let number = |n: i64| (n as i32).to_be_bytes();
        [&number(cell.x)[..], &number(cell.y), &[1]].concat()
    };
    let value: Vec<u8> = cells.iter().flat_map(bytes).collect();
    field(BATCH, &value)
}
