//! An SVG picture: where a cell is drawn, the ground with its labels, head, legend and notes.
use crate::frame::{Axis, Frame};
use crate::shape::{circle, cross, middle, number, path, shifted, text, zigzag, Place, Way};
use runcedau::Cell;

/// Pixels: the longer side of a floor, if its cells are not smaller or larger than these.
const FLOOR: f64 = 760.0;
const LEAST_CELL: f64 = 6.0;
const LARGEST_CELL: f64 = 36.0;
const LEAST_WIDTH: f64 = 560.0;
const HEAD: f64 = 62.0;
const MARGIN: f64 = 16.0;
/// The width of a letter, about, and of a sign with the space behind it.
const LETTER: f64 = 6.8;
const SIGN: f64 = 34.0;

const STYLE: &str = "\
text{font-family:'DejaVu Sans',Verdana,Arial,sans-serif;fill:#333}
.head{font-size:15px;font-weight:bold}
.small{font-size:12px}
.axis{font-size:11px;fill:#666;text-anchor:middle}
.side{text-anchor:end}
.floor{fill:#fbfbfb}
.grid{stroke:#e4e4e4;stroke-width:1;fill:none}
.cut{fill:#fff}
.zigzag{stroke:#999;stroke-width:1.2;fill:none}
";

pub struct Canvas {
    frame: Frame,
    /// Pixels of a cell's side.
    pub unit: f64,
    left: f64,
    bottom: f64,
    width: f64,
    /// Down to where something is drawn.
    height: f64,
    style: String,
    body: String,
}

impl Canvas {
    pub fn new(frame: Frame, style: String) -> Canvas {
        let (columns, rows) = (frame.columns.length(), frame.rows.length());
        let unit = FLOOR / columns.max(rows);
        let unit = unit.clamp(LEAST_CELL, LARGEST_CELL).floor();
        let labels = frame.rows.longest_label() as f64 * LETTER + 10.0;
        let width = (columns * unit + labels + 2.0 * MARGIN).max(LEAST_WIDTH);
        let left = labels + (width - labels - columns * unit) / 2.0;
        let bottom = HEAD + rows * unit;
        let mut canvas = Canvas {
            frame,
            unit,
            left: left.round(),
            bottom,
            width,
            height: bottom + 28.0,
            style,
            body: String::new(),
        };
        canvas.ground();
        canvas.cuts();
        canvas.labels();
        canvas
    }

    pub fn add(&mut self, part: &str) {
        self.body += part;
        self.body.push('\n');
    }

    pub fn finish(self) -> String {
        let (width, height) = (self.width.ceil(), (self.height + 10.0).ceil());
        format!(
            "<svg xmlns=\"http://www.w3.org/2000/svg\" width=\"{width}\" height=\"{height}\" \
             viewBox=\"0 0 {width} {height}\">\n<style>\n{STYLE}{}</style>\n\
             <rect width=\"100%\" height=\"100%\" fill=\"#fff\"/>\n{}</svg>\n",
            self.style, self.body
        )
    }
}

/// Where things are drawn.
impl Canvas {
    fn across(&self, x: f64) -> f64 {
        self.left + self.unit * self.frame.columns.position(x)
    }

    fn down(&self, y: f64) -> f64 {
        self.bottom - self.unit * self.frame.rows.position(y)
    }

    fn place(&self, (x, y): Place) -> Place {
        (self.across(x), self.down(y))
    }

    pub fn centre(&self, cell: Cell) -> Place {
        self.place(middle(cell))
    }

    /// The radius of a point's dot.
    pub fn dot(&self) -> f64 {
        (self.unit * 0.15).clamp(2.2, 5.5)
    }

    /// The outline of a cell, drawn in by so many pixels.
    pub fn square(&self, cell: Cell, inset: f64) -> String {
        let (x, y) = self.place((cell.x as f64, cell.y as f64));
        let corner = path(&[(x + inset, y - inset)]);
        format!("{corner}h{0}v-{0}h-{0}z", number(self.unit - 2.0 * inset))
    }

    /// A line between two centres, moved aside by so many pixels: what of it is seen, and the
    /// bridges over what is left out. So it meets the right cells on both sides of a cut.
    pub fn line(&self, way: &Way, aside: f64) -> (String, String) {
        let (mut seen, mut bridges) = (String::new(), String::new());
        for (hidden, from, to) in self.legs(way) {
            let leg = path(&[self.on_line(way, from, aside), self.on_line(way, to, aside)]);
            let part = if hidden { &mut bridges } else { &mut seen };
            part.push_str(&leg);
        }
        (seen, bridges)
    }

    /// The way in turn where it is drawn and where it is left out: whether it is left out, and the
    /// parts of the way from which to which.
    fn legs(&self, way: &Way) -> Vec<(bool, f64, f64)> {
        let mut stops = vec![0.0, 1.0];
        stops.extend(crossings(&self.frame.columns, way.from.0, way.to.0));
        stops.extend(crossings(&self.frame.rows, way.from.1, way.to.1));
        stops.sort_by(f64::total_cmp);
        let mut legs: Vec<(bool, f64, f64)> = Vec::new();
        for two in stops.windows(2).filter(|two| two[0] < two[1]) {
            let (x, y) = way.at((two[0] + two[1]) / 2.0);
            let hidden = !self.frame.columns.holds(x) || !self.frame.rows.holds(y);
            match legs.last_mut() {
                Some(last) if last.0 == hidden => last.2 = two[1],
                _ => legs.push((hidden, two[0], two[1])),
            }
        }
        legs
    }

    /// Where a part of the way is drawn, on a line that is moved aside.
    pub fn on_line(&self, way: &Way, part: f64, aside: f64) -> Place {
        let (a, b) = (self.place(way.from), self.place(way.to));
        let (dx, dy) = (b.0 - a.0, b.1 - a.1);
        let length = dx.hypot(dy).max(1.0);
        let moved = (-dy / length * aside, dx / length * aside);
        shifted(self.place(way.at(part)), moved)
    }
}

/// The ground, drawn before all else.
impl Canvas {
    fn ground(&mut self) {
        let (left, top) = (self.left, HEAD);
        let width = number(self.unit * self.frame.columns.length());
        let height = number(self.bottom - top);
        let column = |x: f64| format!("{}v{height}", path(&[(self.across(x), top)]));
        let row = |y: f64| format!("{}h{width}", path(&[(left, self.down(y))]));
        let columns = self.frame.columns.borders().map(column);
        let grid: String = columns.chain(self.frame.rows.borders().map(row)).collect();
        self.add(&format!(
            "<rect class=\"floor\" x=\"{}\" y=\"{}\" width=\"{width}\" height=\"{height}\"/>",
            number(left),
            number(top)
        ));
        self.add(&format!("<path class=\"grid\" d=\"{grid}\"/>"));
    }

    /// A white band with a zigzag where columns or rows are left out.
    fn cuts(&mut self) {
        let (width, height) = (self.unit * self.frame.columns.length(), self.bottom - HEAD);
        for (from, _) in self.frame.columns.cuts() {
            self.cut((self.across(from), HEAD - 1.0), height + 2.0, false);
        }
        for (from, _) in self.frame.rows.cuts() {
            let top = self.down(from) - self.unit;
            self.cut((self.left - 1.0, top), width + 2.0, true);
        }
    }

    fn cut(&mut self, (x, y): Place, length: f64, across: bool) {
        let half = self.unit / 2.0;
        let (along, wide) = (number(length), number(self.unit));
        let (width, height) = if across {
            (&along, &wide)
        } else {
            (&wide, &along)
        };
        let corner = path(&[(x, y)]);
        let start = if across { (x, y + half) } else { (x + half, y) };
        let teeth = zigzag(start, length, (half / 2.0).max(3.0), across);
        self.add(&format!(
            "<path class=\"cut\" d=\"{corner}h{width}v{height}h-{width}z\"/>\
             <path class=\"zigzag\" d=\"{teeth}\"/>"
        ));
    }

    fn labels(&mut self) {
        let unit = self.unit;
        let room = |x: i64| (text_width(&x.to_string()) + 8.0) / unit;
        for x in self.frame.columns.labelled(room) {
            let place = (self.across(x as f64 + 0.5), self.bottom + 15.0);
            self.add(&text("axis", place, &x.to_string()));
        }
        for y in self.frame.rows.labelled(|_| 13.0 / unit) {
            let place = (self.left - 7.0, self.down(y as f64 + 0.5) + 4.0);
            self.add(&text("axis side", place, &y.to_string()));
        }
    }
}

/// What is written above and below the floor.
impl Canvas {
    pub fn head(&mut self, first: &str, second: &str) {
        self.widen(text_width(first) * 1.3);
        self.widen(text_width(second) * 1.1);
        self.add(&text("head", (MARGIN, 26.0), first));
        self.add(&text("small", (MARGIN, 45.0), second));
    }

    /// Of the classes that were used, the sign and its meaning, as many in a row as fit.
    pub fn legend(&mut self, meanings: &[(Sign, &str, &str)]) {
        let used = |sign: &Sign, class: &str| self.body.contains(&sign.used_as(class));
        let there = meanings.iter().filter(|(sign, class, _)| used(sign, class));
        let there: Vec<(String, &str)> = there.map(|(s, c, m)| (s.drawn(c), *m)).collect();
        if there.is_empty() {
            return;
        }
        let (mut x, mut y) = (MARGIN, self.height + 12.0);
        for (sign, meaning) in there {
            let wide = SIGN + text_width(meaning) + 18.0;
            if x > MARGIN && x + wide > self.width {
                (x, y) = (MARGIN, y + 22.0);
            }
            self.sign((x, y), &sign, meaning);
            x += wide;
        }
        self.height = y + 18.0;
    }

    /// A sign and a line of text below all that is there.
    pub fn below(&mut self, sign: &str, told: &str) {
        let y = self.height + 10.0;
        self.widen(SIGN + text_width(told));
        self.sign((MARGIN, y), sign, told);
        self.height = y + 12.0;
    }

    fn sign(&mut self, (x, y): Place, sign: &str, meaning: &str) {
        let moved = format!("translate({} {})", number(x), number(y - 4.0));
        self.add(&format!("<g transform=\"{moved}\">{sign}</g>"));
        self.add(&text("small", (x + SIGN, y), meaning));
    }

    fn widen(&mut self, text: f64) {
        self.width = self.width.max(text + 2.0 * MARGIN);
    }
}

/// How a class is shown in a legend.
pub enum Sign {
    Square,
    Line,
    Dot,
    CrossedDot,
}

impl Sign {
    /// How something of the class begins in a picture.
    fn used_as(&self, class: &str) -> String {
        match self {
            Sign::Line => format!("class=\"line {class}\""),
            _ => format!("class=\"{class}\""),
        }
    }

    pub fn drawn(&self, class: &str) -> String {
        let middle = (14.0, 0.0);
        match self {
            Sign::Square => format!("<path class=\"{class}\" d=\"M7 -7h14v14h-14z\"/>"),
            Sign::Line => format!("<path class=\"{class}\" d=\"M0 0h28\"/>"),
            Sign::Dot => circle(class, middle, 5.0, ""),
            Sign::CrossedDot => circle(class, middle, 7.0, "") + &cross(middle, 4.0),
        }
    }
}

/// The parts of a way at which it meets the borders of cuts; none of a way along them.
fn crossings(axis: &Axis, from: f64, to: f64) -> Vec<f64> {
    let borders = axis.cuts().into_iter().flat_map(|(a, b)| [a, b]);
    let parts = borders.map(|border| (border - from) / (to - from));
    parts.filter(|part| *part > 0.0 && *part < 1.0).collect()
}

fn text_width(text: &str) -> f64 {
    text.chars().count() as f64 * LETTER
}

#[cfg(test)]
mod tests {
    use super::*;

    /// From 0,0 to 1000,100 the line rises by a tenth of a cell in each column.
    #[test]
    fn a_line_meets_the_right_cells_on_both_sides_of_a_cut() {
        let (from, to) = (Cell::new(0, 0), Cell::new(1000, 100));
        let canvas = Canvas::new(Frame::around(&[from, to]), String::new());
        let (unit, bottom) = (canvas.unit, canvas.bottom);
        let way = Way::new(from, to);
        let (seen, bridges) = canvas.line(&way, 0.0);
        let start = canvas.centre(from);
        let leaves = (canvas.across(3.0), bottom - unit * 0.75);
        let enters = (canvas.across(998.0), canvas.down(100.25));
        let first = path(&[start, leaves]);
        assert_eq!(seen, first + &path(&[enters, canvas.centre(to)]));
        assert_eq!(bridges, path(&[leaves, enters]));
    }

    #[test]
    fn a_line_is_moved_aside() {
        let (from, to) = (Cell::new(0, 0), Cell::new(4, 0));
        let canvas = Canvas::new(Frame::around(&[from, to]), String::new());
        let (x, y) = canvas.centre(from);
        let way = Way::new(from, to);
        assert_eq!(canvas.on_line(&way, 0.0, 5.0), (x, y + 5.0));
        assert_eq!(
            canvas.line(&way, 5.0).0,
            path(&[(x, y + 5.0), (x + 4.0 * canvas.unit, y + 5.0)])
        );
    }
}
