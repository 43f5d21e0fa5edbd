//! What the Rust with ordered maps answers, behind the refusals of RULES 4, in the console's words.
use crate::asked::Asked;
use oracle::judged::Changes;
use oracle::judged_map::{shift, JudgedMap};
use oracle::occupancy::util::LineSegment;
use oracle::occupancy::{Cell, Point};
use oracle::stand_ins::ArrayVec;

#[derive(Default)]
pub struct RustSide {
    map: Option<JudgedMap>,
}

fn at(cell: &Cell) -> String {
    format!("{},{}", cell.x, cell.y)
}

fn blocker(cell: Option<Cell>) -> String {
    cell.map_or("-".into(), |cell| at(&cell))
}

fn list(words: Vec<String>) -> String {
    let words = words.into_iter().map(|word| format!(" {word}"));
    format!("{}{}", words.len(), words.collect::<String>())
}

fn cells(list_of: Vec<Cell>) -> String {
    list(list_of.iter().map(at).collect())
}

fn floats(numbers: &[f64]) -> String {
    let word = |x: &f64| match x.is_nan() {
        true => "nan".into(),
        false => format!("{:016x}", x.to_bits()),
    };
    list(numbers.iter().map(word).collect())
}

fn crossings(places: ArrayVec<f64, 2>) -> String {
    floats(&places.into_iter().collect::<Vec<f64>>())
}

fn two(p: Point) -> String {
    floats(&[p.x, p.y])
}

fn yes(is: bool) -> String {
    (if is { "yes" } else { "no" }).into()
}

fn changes(done: Changes) -> String {
    let confirmed = done
        .confirmed
        .iter()
        .map(|(cell, o)| format!("{}={}", at(cell), *o as u8));
    let corners = done
        .corners
        .iter()
        .map(|(cell, s)| format!("{}={}", at(cell), s.0));
    let (confirmed, corners): (Vec<String>, Vec<String>) = (confirmed.collect(), corners.collect());
    format!(
        "{} confirmed {} corners {}",
        yes(!confirmed.is_empty()),
        list(confirmed),
        list(corners)
    )
}

fn points(map: &JudgedMap) -> Vec<String> {
    let points = map.rust().debug_points().iter();
    let word = |(p, (b, s)): (&Cell, &(Option<Cell>, oracle::occupancy::CornerStatus))| {
        format!("{}={}/{}", at(p), s.0, blocker(*b))
    };
    points.map(word).collect()
}

fn listed(map: &JudgedMap, name: &str) -> String {
    list(match name {
        "cells" => map.occupied_cells().iter().map(at).collect(),
        "corners" => map
            .corners()
            .iter()
            .map(|(cell, s)| format!("{}={}", at(cell), s.0))
            .collect(),
        "points" => points(map),
        "pairs" => map
            .pairs()
            .iter()
            .map(|(p, q, b)| format!("{}:{}/{}", at(p), at(q), blocker(*b)))
            .collect(),
        _ => map
            .open_pairs()
            .iter()
            .map(|(p, q)| format!("{}:{}", at(p), at(q)))
            .collect(),
    })
}

/// 0 and the words, or the refusal's number.
fn numbered(answer: Result<String, u64>) -> String {
    match answer {
        Ok(words) if words.is_empty() => "0".into(),
        Ok(words) => format!("0 {words}"),
        Err(refusal) => refusal.to_string(),
    }
}

impl RustSide {
    fn open(&mut self, size: f64, radius: f64) -> Result<String, u64> {
        self.map = None;
        self.map = Some(JudgedMap::open(size, radius)?);
        Ok(String::new())
    }

    fn of_map(&mut self, ask: impl FnOnce(&mut JudgedMap) -> Result<String, u64>) -> String {
        numbered(self.map.as_mut().ok_or(1).and_then(ask))
    }

    fn words(&mut self, asked: &Asked) -> String {
        match asked {
            Asked::Open(size, radius) => numbered(self.open(*size, *radius)),
            Asked::Batch(entries) => self.of_map(|map| map.change(entries).map(changes)),
            Asked::Radius(radius) => {
                self.of_map(|map| map.change_radius(*radius).map(|()| String::new()))
            }
            Asked::Shape(question) => self.of_map(|map| map.ask(question).map(blocker)),
            Asked::Visibility(cell) => self.of_map(|map| map.visibility(*cell).map(cells)),
            Asked::Neighbours(cell) => self.of_map(|map| map.neighbours(*cell).map(cells)),
            Asked::Occupied(cell) => self.of_map(|map| Ok(yes(map.is_occupied(*cell)))),
            Asked::List(name) => self.of_map(|map| Ok(listed(map, name))),
            Asked::Floor(x) => (x.floor() as i64).to_string(),
            Asked::Ceil(x) => (x.ceil() as i64).to_string(),
            Asked::Abs(x) => floats(&[x.abs()]),
            Asked::Sqrt(x) => floats(&[x.sqrt()]),
            Asked::Shift(radius, size) => (shift(*size, *radius) as i64).to_string(),
            Asked::CellOf(size, p) => at(&Cell::from_point(*p, *size)),
            Asked::Centre(size, cell) => two(cell.center_point(*size)),
            Asked::BottomLeft(size, cell) => two(cell.bottom_left_point(*size)),
            Asked::Distance(p, q, r) => floats(&[LineSegment::new(*p, *q).distance_from_point(*r)]),
            Asked::Vertical(p, q, x) => crossings(LineSegment::new(*p, *q).vertical_intersect(*x)),
            Asked::Horizontal(p, q, y) => {
                crossings(LineSegment::new(*p, *q).horizontal_intersect(*y))
            }
            Asked::Near(size, radius, p, q, cell) => {
                yes(LineSegment::new(*p, *q).passes_near_cell(cell, *size, *radius))
            }
        }
    }

    pub fn answer(&mut self, asked: &Asked) -> String {
        format!("{} {}", asked.name(), self.words(asked))
    }
}
