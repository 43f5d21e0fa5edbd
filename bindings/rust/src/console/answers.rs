//! What is answered, in the console's words.
use crate::{Cell, Changes, FileRefusal, Pair, Refusal, VisiblePoint};

/// A cell, or `-` for none.
pub fn named(cell: Option<Cell>) -> String {
    cell.map_or("-".into(), |cell| cell.to_string())
}

/// How many, and each.
pub fn told<T>(list: impl IntoIterator<Item = T>, tell: impl Fn(T) -> String) -> String {
    let words: Vec<String> = list.into_iter().map(tell).collect();
    [vec![words.len().to_string()], words].concat().join(" ")
}

pub fn cells(list: impl IntoIterator<Item = Cell>) -> String {
    told(list, |cell| cell.to_string())
}

pub fn marked(list: impl IntoIterator<Item = (Cell, u8)>) -> String {
    told(list, |(cell, number)| format!("{cell}={number}"))
}

pub fn points(list: Vec<VisiblePoint>) -> String {
    told(list, |p| {
        format!("{}={}/{}", p.cell, p.status, named(p.blocker))
    })
}

pub fn pairs(list: Vec<Pair>) -> String {
    told(list, |p| {
        format!("{}:{}/{}", p.lesser, p.greater, named(p.blocker))
    })
}

pub fn ends(list: impl IntoIterator<Item = (Cell, Cell)>) -> String {
    told(list, |(p, q)| format!("{p}:{q}"))
}

/// Each as its bits in 16 hexadecimal digits.
pub fn floats(list: impl IntoIterator<Item = f64>) -> String {
    told(list, |x| {
        if x.is_nan() {
            "nan".into()
        } else {
            format!("{:016x}", x.to_bits())
        }
    })
}

pub fn bytes(list: &[u8]) -> String {
    list.iter().map(|byte| format!("{byte:02x}")).collect()
}

pub fn yes(is: bool) -> String {
    if is { "yes" } else { "no" }.into()
}

pub fn changes(done: Changes) -> String {
    let confirmed = done.confirmed.into_iter();
    let confirmed = confirmed.map(|(cell, full)| (cell, full as u8));
    let (count, corners) = (confirmed.len(), marked(done.corners));
    format!(
        "{} confirmed {} corners {corners}",
        yes(count > 0),
        marked(confirmed)
    )
}

/// 0 and what was answered, or the refusal's number.
pub fn numbered(answer: Result<String, Refusal>) -> String {
    match answer {
        Ok(words) => format!("0 {words}").trim_end().into(),
        Err(refusal) => refusal.number().to_string(),
    }
}

/// A refused file's number, and the field.
pub fn refused_at(refused: FileRefusal) -> String {
    format!("{} at {}", refused.refusal.number(), refused.field)
}
