//! What is wrong with a map file, in a clerk's words. The verdict is the library's: this looks for
//! the place in the file, and says nothing where it finds none.
use super::fields::{entries, float, Fields, BATCH, CELL_SIZE, END, ENTRIES, ENTRY, RADIUS};
use crate::{Cell, FileRefusal, Refusal};
use std::collections::BTreeSet;

/// The most cells, and the furthest coordinate.
const CELLS: usize = 1024;
const FURTHEST: i64 = 1_048_576;

/// The sentence that names what a verdict is about.
pub fn cause(verdict: &FileRefusal, file: &[u8]) -> Option<String> {
    let number = usize::try_from(verdict.field).ok()?;
    let mut fields = Fields(file);
    let before: Vec<Field> = fields.by_ref().take(number).collect();
    let rest = fields.0;
    if before.len() < number {
        return None;
    }
    if verdict.refusal == Refusal::MalformedFile {
        return malformed(number, &before, rest);
    }
    let words = if verdict.refusal == Refusal::BatchLength {
        too_long(rest)?
    } else {
        wrong_value(verdict.refusal, &before, Fields(rest).next()?)?
    };
    Some(format!("{}: {words}", named(number, *rest.first()?)))
}

/// A tag and a value.
type Field<'a> = (u8, &'a [u8]);

/// What a field is to a clerk. Change lists count from 1, fields from 0.
fn named(number: usize, tag: u8) -> String {
    match tag {
        CELL_SIZE => format!("cell size (field {number})"),
        RADIUS => format!("radius (field {number})"),
        BATCH => format!(
            "change list no. {} (field {number})",
            number.saturating_sub(1)
        ),
        _ => format!("the end (field {number})"),
    }
}

/// What may stand at a field's place, and its words.
fn wanted(number: usize) -> (&'static [u8], &'static str) {
    match number {
        0 => (&[CELL_SIZE], "01 (the cell size)"),
        1 => (&[RADIUS], "02 (the radius)"),
        _ => (&[BATCH, END], "03 (a change list) or FF (the end)"),
    }
}

/// What is wrong with the bytes of a field: its tag, then its length, then its value.
fn malformed(number: usize, before: &[Field], rest: &[u8]) -> Option<String> {
    let (tags, words) = wanted(number);
    let ended = before.last().is_some_and(|(tag, _)| *tag == END);
    Some(match rest.first() {
        None if ended => return None,
        None if number == 0 => format!("the file is empty: field 0, {words}, is missing"),
        None => format!("the file stops before field {number}: {words} is missing"),
        Some(_) if rest.len() == 1 && ended => format!("field {number}: a byte follows the end"),
        Some(_) if ended => format!(
            "field {number}: {} bytes follow the end",
            grouped(rest.len())
        ),
        Some(tag) if tags.contains(tag) => {
            format!("{}: {}", named(number, *tag), wrong_bytes(rest)?)
        }
        Some(tag) => format!("field {number} begins with byte {tag:02X} where {words} may stand"),
    })
}

/// Of a field with a good tag.
fn wrong_bytes(rest: &[u8]) -> Option<String> {
    let Some((&[tag, high, low], value)) = rest.split_first_chunk() else {
        return Some("the file stops inside its length".into());
    };
    let length = usize::from(u16::from_be_bytes([high, low]));
    let (good, words) = match tag {
        BATCH => (length % ENTRY == 0, "is not a multiple of 9"),
        END => (length == 0, "is not 0"),
        _ => (length == 8, "is not 8"),
    };
    if !good {
        return Some(format!("its length {} {words}", grouped(length)));
    }
    if value.len() < length {
        let (there, all) = (grouped(value.len()), grouped(length));
        return Some(format!(
            "the file stops inside it, after {there} of {all} bytes"
        ));
    }
    let list = entries(&value[..length]);
    let at = list
        .iter()
        .position(|(_, last)| *last > 1)
        .filter(|_| tag == BATCH)?;
    let (entry, last) = (at + 1, list[at].1);
    Some(format!(
        "entry {entry} ends in {last} where 0 (free) or 1 (occupied) may stand"
    ))
}

fn too_long(rest: &[u8]) -> Option<String> {
    let (&[tag, high, low], _) = rest.split_first_chunk()?;
    let length = usize::from(u16::from_be_bytes([high, low]));
    let most = ENTRIES * ENTRY;
    if tag != BATCH || length <= most {
        return None;
    }
    Some(if length % ENTRY == 0 {
        format!(
            "it has {} entries, and 256 are the most",
            grouped(length / ENTRY)
        )
    } else {
        let (length, most) = (grouped(length), grouped(most));
        format!("its length is {length} bytes, and {most} (256 entries) are the most")
    })
}

/// What is wrong with what a field says.
fn wrong_value(refusal: Refusal, before: &[Field], (tag, value): Field) -> Option<String> {
    match (refusal, tag) {
        (Refusal::CellSize, CELL_SIZE) => wrong_size(float(value)?),
        (Refusal::Radius, RADIUS) => wrong_radius(float(value)?, float(before.first()?.1)?),
        (Refusal::BatchOrder, BATCH) => out_of_order(&entries(value)),
        (Refusal::Coordinate, BATCH) => too_far(&entries(value)),
        (Refusal::TooManyCells, BATCH) => too_many_cells(before, value),
        (Refusal::TooManyPoints, BATCH) => Some(refusal.to_string()),
        _ => None,
    }
}

fn wrong_size(size: f64) -> Option<String> {
    let good = (1.0 / 1024.0..=65_536.0).contains(&size);
    (!good).then(|| format!("{} is not from 1/1,024 to 65,536", plain(size)))
}

fn wrong_radius(radius: f64, size: f64) -> Option<String> {
    let told = plain(radius);
    if !radius.is_finite() {
        Some(format!("{told} is not a finite number"))
    } else if radius < 0.0 {
        Some(format!("{told} is below 0"))
    } else if radius / size > 63.5 {
        Some(format!(
            "{told} is more than 63.5 times the cell size {}",
            plain(size)
        ))
    } else {
        None
    }
}

fn out_of_order(list: &[(Cell, u8)]) -> Option<String> {
    let at = (1..list.len()).find(|at| list[at - 1].0 >= list[*at].0)?;
    let (cell, earlier, entry) = (list[at].0, list[at - 1].0, at + 1);
    let twice = list[..at].iter().position(|(other, _)| *other == cell);
    Some(match twice {
        Some(first) => format!(
            "cell {cell} is named twice (entries {} and {entry})",
            first + 1
        ),
        None => format!(
            "cell {cell} (entry {entry}) comes after {earlier} (entry {at}): \
             cells must ascend by x, then y"
        ),
    })
}

fn too_far(list: &[(Cell, u8)]) -> Option<String> {
    let beyond = |cell: &Cell| [cell.x, cell.y].into_iter().find(|n| n.abs() > FURTHEST);
    let far = |(at, entry): (usize, &(Cell, u8))| Some((at, entry.0, beyond(&entry.0)?));
    let (at, cell, n) = list.iter().enumerate().find_map(far)?;
    let (entry, sign) = (at + 1, if n < 0 { "-" } else { "" });
    let most = grouped(FURTHEST as usize);
    Some(format!(
        "cell {cell} (entry {entry}) lies beyond {sign}{most}"
    ))
}

/// Counted by applying the change lists before this one, and it.
fn too_many_cells(before: &[Field], value: &[u8]) -> Option<String> {
    let lists = before
        .iter()
        .filter(|(tag, _)| *tag == BATCH)
        .map(|(_, value)| *value);
    let mut occupied = BTreeSet::new();
    for (cell, last) in lists.chain([value]).flat_map(entries) {
        if last == 0 {
            occupied.remove(&cell);
        } else {
            occupied.insert(cell);
        }
    }
    let (count, most) = (grouped(occupied.len()), grouped(CELLS));
    (occupied.len() > CELLS)
        .then(|| format!("{count} cells would be occupied, and {most} are the most"))
}

/// A whole number with a comma before every three digits.
fn grouped(number: usize) -> String {
    let digits = number.to_string();
    let comma = |(at, digit)| match (digits.len() - at) % 3 {
        0 if at > 0 => vec![',', digit],
        _ => vec![digit],
    };
    digits.chars().enumerate().flat_map(comma).collect()
}

/// A float as a person writes it: with an exponent where it would be long.
fn plain(x: f64) -> String {
    let short = x == 0.0 || !x.is_finite() || (1e-6..1e12).contains(&x.abs());
    if short {
        x.to_string()
    } else {
        format!("{x:e}")
    }
}
