//! The questions of the console, as lines and as values.
use oracle::occupancy::{Cell, Point};
use oracle::question::{Entry, Question};

pub enum Asked {
    Open(f64, f64),
    Batch(Vec<Entry>),
    Radius(f64),
    Shape(Question),
    Visibility(Cell),
    Neighbours(Cell),
    Occupied(Cell),
    /// One of `LISTS`.
    List(&'static str),
    Floor(f64),
    Ceil(f64),
    Abs(f64),
    Sqrt(f64),
    Shift(f64, f64),
    CellOf(f64, Point),
    Centre(f64, Cell),
    BottomLeft(f64, Cell),
    Distance(Point, Point, Point),
    Vertical(Point, Point, f64),
    Horizontal(Point, Point, f64),
    Near(f64, f64, Point, Point, Cell),
}

pub const LISTS: [&str; 5] = ["cells", "corners", "points", "pairs", "openpairs"];

fn bits(numbers: &[f64]) -> String {
    let digits = numbers.iter().map(|x| format!(" {:016x}", x.to_bits()));
    digits.collect()
}

fn cell(cell: &Cell) -> String {
    format!(" {} {}", cell.x, cell.y)
}

fn batch(entries: &[Entry]) -> String {
    let words = entries
        .iter()
        .map(|(x, y, occupied)| format!(" {x} {y} {}", *occupied as u8));
    format!(" {}{}", entries.len(), words.collect::<String>())
}

impl Asked {
    pub fn name(&self) -> &'static str {
        match self {
            Asked::Open(..) => "open",
            Asked::Batch(_) => "batch",
            Asked::Radius(_) => "radius",
            Asked::Shape(Question::Point(_)) => "point",
            Asked::Shape(Question::Square(..)) => "square",
            Asked::Shape(Question::Circle(..)) => "circle",
            Asked::Shape(Question::Sweep(..)) => "sweep",
            Asked::Visibility(_) => "visibility",
            Asked::Neighbours(_) => "neighbours",
            Asked::Occupied(_) => "occupied",
            Asked::List(name) => name,
            Asked::Floor(_) => "floor",
            Asked::Ceil(_) => "ceil",
            Asked::Abs(_) => "abs",
            Asked::Sqrt(_) => "sqrt",
            Asked::Shift(..) => "shift",
            Asked::CellOf(..) => "cellof",
            Asked::Centre(..) => "centre",
            Asked::BottomLeft(..) => "bottomleft",
            Asked::Distance(..) => "distance",
            Asked::Vertical(..) => "vertical",
            Asked::Horizontal(..) => "horizontal",
            Asked::Near(..) => "near",
        }
    }

    /// What stands behind the name, each word with a space before it.
    fn words(&self) -> String {
        match self {
            Asked::Open(size, radius) => bits(&[*size, *radius]),
            Asked::Batch(entries) => batch(entries),
            Asked::Radius(x)
            | Asked::Floor(x)
            | Asked::Ceil(x)
            | Asked::Abs(x)
            | Asked::Sqrt(x) => bits(&[*x]),
            Asked::Shape(Question::Point(p)) => bits(&[p.x, p.y]),
            Asked::Shape(Question::Square(p, extent) | Question::Circle(p, extent)) => {
                bits(&[p.x, p.y, *extent])
            }
            Asked::Shape(Question::Sweep(p, q, width)) => bits(&[p.x, p.y, q.x, q.y, *width]),
            Asked::Visibility(at) | Asked::Neighbours(at) | Asked::Occupied(at) => cell(at),
            Asked::List(_) => String::new(),
            Asked::Shift(radius, size) => bits(&[*radius, *size]),
            Asked::CellOf(size, p) => bits(&[*size, p.x, p.y]),
            Asked::Centre(size, at) | Asked::BottomLeft(size, at) => bits(&[*size]) + &cell(at),
            Asked::Distance(p, q, r) => bits(&[p.x, p.y, q.x, q.y, r.x, r.y]),
            Asked::Vertical(p, q, x) | Asked::Horizontal(p, q, x) => {
                bits(&[p.x, p.y, q.x, q.y, *x])
            }
            Asked::Near(size, radius, p, q, at) => {
                bits(&[*size, *radius, p.x, p.y, q.x, q.y]) + &cell(at)
            }
        }
    }

    pub fn line(&self) -> String {
        self.name().to_string() + &self.words()
    }
}
