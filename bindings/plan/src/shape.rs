//! Places and ways, and the shapes of an SVG picture that are made of them.
use runcedau::Cell;
use std::fmt::Write;

/// On the floor, counted in cells, or on the picture, in pixels.
pub type Place = (f64, f64);

/// Half the width of a number's circle.
pub const TAG: f64 = 8.5;

/// The way from the centre of one cell to that of another, counted in cells.
pub struct Way {
    pub from: Place,
    pub to: Place,
}

impl Way {
    pub fn new(from: Cell, to: Cell) -> Way {
        Way {
            from: middle(from),
            to: middle(to),
        }
    }

    /// The place at a part of the way: 0 is its beginning, 1 its end.
    pub fn at(&self, part: f64) -> Place {
        let between = |a: f64, b: f64| a + (b - a) * part;
        let x = between(self.from.0, self.to.0);
        (x, between(self.from.1, self.to.1))
    }

    pub fn length(&self) -> f64 {
        distance(self.from, self.to)
    }

    /// The part of the way that is nearest to the centre of a cell.
    pub fn nearest(&self, cell: Cell) -> f64 {
        let (x, y) = middle(cell);
        let (dx, dy) = (self.to.0 - self.from.0, self.to.1 - self.from.1);
        let along = (x - self.from.0) * dx + (y - self.from.1) * dy;
        (along / (dx * dx + dy * dy)).clamp(0.0, 1.0)
    }
}

pub fn middle(cell: Cell) -> Place {
    (cell.x as f64 + 0.5, cell.y as f64 + 0.5)
}

pub fn shifted(a: Place, b: Place) -> Place {
    (a.0 + b.0, a.1 + b.1)
}

pub fn distance(a: Place, b: Place) -> f64 {
    (b.0 - a.0).hypot(b.1 - a.1)
}

/// With one decimal at most.
pub fn number(value: f64) -> String {
    tenths(in_tenths(value))
}

fn in_tenths(value: f64) -> i64 {
    (value * 10.0).round() as i64
}

fn tenths(value: i64) -> String {
    let sign = if value < 0 { "-" } else { "" };
    match (value.abs() / 10, value.abs() % 10) {
        (whole, 0) => format!("{sign}{whole}"),
        (whole, part) => format!("{sign}{whole}.{part}"),
    }
}

/// The data of a path through these places, each told from the one before.
pub fn path(places: &[Place]) -> String {
    let mut data = String::new();
    let (mut x, mut y) = (0, 0);
    for (i, place) in places.iter().enumerate() {
        let (dx, dy) = (in_tenths(place.0) - x, in_tenths(place.1) - y);
        (x, y) = (x + dx, y + dy);
        let command = if i == 0 { "M" } else { "l" };
        write!(data, "{command}{} {}", tenths(dx), tenths(dy)).expect("a string has room");
    }
    data
}

/// Along a way that is so long, across or down.
pub fn zigzag(from: Place, length: f64, tooth: f64, across: bool) -> String {
    let place = |i: usize| {
        let along = (i as f64 * tooth).min(length);
        let aside = [0.0, 0.6 * tooth, 0.0, -0.6 * tooth][i % 4];
        let moved = if across {
            (along, aside)
        } else {
            (aside, along)
        };
        shifted(from, moved)
    };
    let count = (length / tooth).ceil() as usize;
    path(&(0..=count).map(place).collect::<Vec<_>>())
}

pub fn circle(class: &str, (x, y): Place, radius: f64, inside: &str) -> String {
    let (x, y, radius) = (number(x), number(y), number(radius));
    format!("<circle class=\"{class}\" cx=\"{x}\" cy=\"{y}\" r=\"{radius}\">{inside}</circle>")
}

pub fn cross((x, y): Place, arm: f64) -> String {
    let one = path(&[(x - arm, y - arm), (x + arm, y + arm)]);
    let other = path(&[(x - arm, y + arm), (x + arm, y - arm)]);
    format!("<path class=\"cross\" d=\"{one}{other}\"/>")
}

pub fn text(class: &str, (x, y): Place, text: &str) -> String {
    let (x, y) = (number(x), number(y));
    format!("<text class=\"{class}\" x=\"{x}\" y=\"{y}\">{text}</text>")
}

/// A number in a circle.
pub fn numbered(place: Place, tag: usize) -> String {
    let label = text("number", (place.0, place.1 + 4.0), &tag.to_string());
    circle("tag", place, TAG, "") + &label
}
