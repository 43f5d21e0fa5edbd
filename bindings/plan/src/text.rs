//! A floor as characters. `plan make` reads what is printed here.
use crate::floor::{exact, Floor};
use crate::frame::{Axis, Frame};
use runcedau::{Cell, VisiblePoint};
use std::collections::HashMap;

/// The marks with what they say, in the order of the legend.
pub const MARKS: [(char, &str); 7] = [
    ('#', "occupied"),
    ('B', "occupied, blocks a line or a point"),
    ('.', "free"),
    ('o', "point"),
    ('x', "blocked point"),
    ('O', "occupied, and a point"),
    ('X', "occupied, and a blocked point"),
];
/// In place of a mark: columns or rows that are left out.
pub const CUT: char = '~';
/// Up to so many characters a drawing is made wider, so that each column has its label.
const WIDEST: usize = 80;

pub fn plan(floor: &Floor) -> String {
    let frame = Frame::around(&floor.drawn().collect::<Vec<_>>());
    let marks = marks(floor);
    let mut out = format!(
        "cell size {}\nradius {}\ncolumns {}\n\n",
        exact(floor.size),
        exact(floor.radius),
        stretches(&frame.columns)
    );
    out += &drawing(&frame, |cell| {
        marks.get(&cell).copied().unwrap_or('.').to_string()
    });
    out += &format!("\n{}\n{}\n", legend(&MARKS, marks.values()), floor.counts());
    out += &not_open(floor);
    out
}

/// Blocked pairs, pairs with a blocked end, blocked points.
fn not_open(floor: &Floor) -> String {
    let lines = floor.blocked().chain(floor.with_blocked_end());
    let mut out: String = lines.map(|line| format!("{line}\n")).collect();
    for VisiblePoint { cell, blocker, .. } in &floor.points {
        if let Some(blocker) = blocker {
            out += &format!("point {cell} is blocked by {blocker}\n");
        }
    }
    out
}

/// The mark of each cell that is not just free.
pub fn marks(floor: &Floor) -> HashMap<Cell, char> {
    let mut marks: HashMap<Cell, char> = floor.cells.iter().map(|cell| (*cell, '#')).collect();
    marks.extend(floor.blockers().into_keys().map(|cell| (cell, 'B')));
    for point in &floor.points {
        let occupied = marks.contains_key(&point.cell);
        let mark = match (occupied, point.blocker.is_some()) {
            (false, false) => 'o',
            (false, true) => 'x',
            (true, false) => 'O',
            (true, true) => 'X',
        };
        marks.insert(point.cell, mark);
    }
    marks
}

/// Of the marks that are there, and of free cells always.
pub fn legend<'a>(known: &[(char, &str)], used: impl Iterator<Item = &'a char>) -> String {
    let used: Vec<&char> = used.collect();
    let there = known
        .iter()
        .filter(|(mark, _)| *mark == '.' || used.contains(&mark));
    let told: Vec<String> = there.map(|(mark, told)| format!("{mark} {told}")).collect();
    told.join("   ")
}

/// Rows with their labels, the highest first, and the labels of the columns below.
pub fn drawing(frame: &Frame, mark: impl Fn(Cell) -> String) -> String {
    let margin = frame.rows.longest_label().max("x:".len());
    let pitch = pitch(&frame.columns, margin);
    let mut out = String::new();
    for row in frame.rows.places().rev() {
        let label = row.map_or(String::new(), |y| y.to_string());
        out += &format!("{label:>margin$} ");
        for column in frame.columns.places() {
            let cell = row.zip(column).map(|(y, x)| Cell::new(x, y));
            out += &" ".repeat(pitch - 1);
            out += &cell.map_or(CUT.to_string(), &mark);
        }
        out += "\n";
    }
    out + &column_labels(&frame.columns, margin, pitch)
}

/// How far apart the marks are: 3 where so each column has room for its label, and the drawing
/// stays narrow.
fn pitch(columns: &Axis, margin: usize) -> usize {
    let fits = margin + 1 + 3 * columns.places().count() <= WIDEST;
    if columns.longest_label() == 2 && fits {
        3
    } else {
        2
    }
}

/// One line if each column has its label, and else a line of ticks and one of labels.
fn column_labels(columns: &Axis, margin: usize, pitch: usize) -> String {
    let mut ticks = format!("{:>margin$} ", "x:");
    let mut labels = " ".repeat(margin + 1);
    let labelled = columns.labelled(|x| (x.to_string().len() + 1) as f64 / pitch as f64);
    for (i, column) in columns.places().enumerate() {
        let place = margin + pitch * (i + 1);
        if let Some(x) = column.filter(|x| labelled.contains(x)) {
            ticks += &format!("{:>1$}", "|", place + 1 - ticks.len());
            labels += &" ".repeat(place - labels.len().min(place));
            labels += &x.to_string();
        }
    }
    if labelled.len() == columns.places().flatten().count() {
        return format!("{}\n", every_label(columns, margin, pitch));
    }
    format!("{ticks}\n{labels}\n")
}

fn every_label(columns: &Axis, margin: usize, pitch: usize) -> String {
    let label = |x: Option<i64>| x.map_or(CUT.to_string(), |x| x.to_string());
    let labels = columns.places().map(|x| format!("{:>pitch$}", label(x)));
    format!("{:>margin$} {}", "x:", labels.collect::<String>())
}

fn stretches(columns: &Axis) -> String {
    let told = columns
        .stretches
        .iter()
        .map(|(from, to)| format!("{from} to {to}"));
    told.collect::<Vec<_>>().join(", ")
}
