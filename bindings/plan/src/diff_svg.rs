//! What changed, as an SVG picture.
use crate::canvas::{Canvas, Sign};
use crate::diff::{Difference, Kind, LineChange};
use crate::floor::{exact, Sight};
use crate::frame::Frame;
use crate::shape::numbered;
use crate::strokes::{self, Stroke, NUMBERED};
use crate::svg::{self, dot, square};
use runcedau::Cell;
use std::collections::BTreeSet;

const STYLE: &str = "\
.rack{fill:#8a94a6}
.closed{fill:#e69f00;stroke:#a33e00;stroke-width:2.5}
.freed{fill:#fff;stroke:#00795a;stroke-width:2;stroke-dasharray:4 3}
.blocker{fill:none;pointer-events:none}
.gone{fill:#fff;stroke:#777;stroke-width:1.4;stroke-dasharray:2 2}
.new{fill:#009e73;stroke:#fff;stroke-width:1}
.same{stroke:#b9b9b9;fill:none;stroke-width:1}
.shut{stroke-dasharray:5 4}
.other{stroke:#999;fill:none;stroke-width:1.4;stroke-dasharray:2 4}
.went{stroke-width:1.1}
";

const LEGEND: [(Sign, &str, &str); 14] = [
    (Sign::Square, "rack", "occupied as before"),
    (Sign::Square, "closed", "closed"),
    (Sign::Square, "freed", "freed"),
    (Sign::Square, "blocker", "in the way of a lost line"),
    (Sign::Dot, "point", "point"),
    (Sign::CrossedDot, "taken", "blocked point"),
    (Sign::Dot, "new", "point that came"),
    (Sign::Dot, "gone", "point that went"),
    (Sign::Line, "dashed", "lost: blocked now"),
    (Sign::Line, "dashed went", "lost: no pair any more"),
    (Sign::Line, "open", "gained"),
    (Sign::Line, "other", "changed, but not open before or now"),
    (Sign::Line, "same", "open as before"),
    (Sign::Line, "same shut", "not open, as before"),
];

pub fn draw(difference: &Difference) -> String {
    let strokes = strokes_of(difference);
    let style = [svg::STYLE, &strokes::style(&strokes), STYLE].concat();
    let drawn = difference.before.drawn().chain(difference.after.drawn());
    let mut canvas = Canvas::new(Frame::around(&drawn.collect::<Vec<_>>()), style);
    canvas.head(&difference.summary(), &notes(difference));
    if strokes::crowded(&strokes) {
        strokes::draw(&mut canvas, &strokes, |canvas| {
            racks(canvas, difference);
            closed(canvas, difference);
        });
    } else {
        racks(&mut canvas, difference);
        strokes::draw(&mut canvas, &strokes, |canvas| closed(canvas, difference));
    }
    points(&mut canvas, difference);
    canvas.legend(&LEGEND);
    told(&mut canvas, difference);
    canvas.finish()
}

fn notes(difference: &Difference) -> String {
    let size = format!("Cell size {}.", exact(difference.after.size));
    difference
        .notes()
        .into_iter()
        .fold(size, |told, note| told + " " + &note)
}

fn became_blocked(difference: &Difference) -> impl Iterator<Item = &LineChange> {
    difference.lines.iter().filter(|line| line.became_blocked())
}

fn strokes_of(difference: &Difference) -> Vec<Stroke> {
    let few = became_blocked(difference).count() <= NUMBERED;
    let mut numbers = 1..;
    let stroke = |line: &LineChange| Stroke {
        from: line.from,
        to: line.to,
        class: class(line),
        title: line.to_string(),
        shared: line.kind() != Kind::Lost,
        blocker: line.blocker().filter(|_| line.became_blocked()),
        number: Some(line)
            .filter(|line| few && line.became_blocked())
            .and_then(|_| numbers.next()),
    };
    let mut strokes: Vec<Stroke> = difference.lines.iter().map(stroke).collect();
    let order = [
        "same shut",
        "same",
        "other",
        "open",
        "dashed went",
        "dashed",
    ];
    strokes::sort(&mut strokes, &order);
    strokes
}

fn class(line: &LineChange) -> &'static str {
    match line.kind() {
        Kind::Lost if line.after.is_none() => "dashed went",
        Kind::Lost => "dashed",
        Kind::Gained => "open",
        Kind::Other => "other",
        Kind::Same if line.after == Some(Sight::Open) => "same",
        Kind::Same => "same shut",
    }
}

/// The racks that stay, and freed cells.
fn racks(canvas: &mut Canvas, difference: &Difference) {
    let stays = |cell: &&Cell| difference.closed.binary_search(cell).is_err();
    for cell in difference.after.cells.iter().filter(stays) {
        canvas.add(&square(canvas, "rack", *cell, &cell.to_string()));
    }
    for cell in &difference.freed {
        canvas.add(&square(canvas, "freed", *cell, &format!("{cell}: freed")));
    }
}

/// Closed cells, and the blockers of lost lines.
fn closed(canvas: &mut Canvas, difference: &Difference) {
    for cell in &difference.closed {
        canvas.add(&square(canvas, "closed", *cell, &format!("{cell}: closed")));
    }
    let blockers: BTreeSet<Cell> = became_blocked(difference)
        .filter_map(LineChange::blocker)
        .collect();
    for cell in blockers {
        canvas.add(&square(canvas, "blocker", cell, &cell.to_string()));
    }
}

fn points(canvas: &mut Canvas, difference: &Difference) {
    svg::points(canvas, &difference.after.points);
    for point in &difference.points {
        let class = match (point.before, point.after) {
            (_, None) => "gone",
            (None, Some(None)) => "new",
            _ => continue,
        };
        canvas.add(&dot(canvas, class, point.cell, &point.to_string()));
    }
}

/// Where few lines became blocked, each is told with its number.
fn told(canvas: &mut Canvas, difference: &Difference) {
    let blocked: Vec<&LineChange> = became_blocked(difference).collect();
    if blocked.len() <= NUMBERED {
        for (i, line) in blocked.into_iter().enumerate() {
            canvas.below(&numbered((14.0, 0.0), i + 1), &line.to_string());
        }
    }
}
