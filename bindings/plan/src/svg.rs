//! A floor as an SVG picture.
use crate::canvas::{Canvas, Sign};
use crate::floor::{exact, Floor, Line, Sight};
use crate::frame::Frame;
use crate::shape::{circle, cross, numbered, path, text, Place};
use crate::strokes::{self, Stroke, NUMBERED};
use runcedau::{Cell, VisiblePoint};

/// Also of the picture of a difference.
pub const STYLE: &str = "\
.rack{fill:#4a5568;stroke:#fbfbfb;stroke-width:1}
.blocker{fill:#fbd3ba;stroke:#d55e00;stroke-width:2}
.cell{font-size:9px;fill:#8a3a00;text-anchor:middle;pointer-events:none}
.end{stroke:#666;fill:none;stroke-dasharray:0.1 4.5;stroke-width:2.2;stroke-linecap:round}
.point{fill:#1f3a93;stroke:#fff;stroke-width:1}
.taken{fill:#fff;stroke:#d55e00;stroke-width:2}
";

const LEGEND: [(Sign, &str, &str); 7] = [
    (Sign::Square, "rack", "occupied"),
    (Sign::Square, "blocker", "occupied, and in the way"),
    (Sign::Dot, "point", "point"),
    (Sign::CrossedDot, "taken", "blocked point"),
    (Sign::Line, "open", "open"),
    (Sign::Line, "dashed", "blocked"),
    (Sign::Line, "end", "has a blocked end"),
];

pub fn plan(floor: &Floor) -> String {
    let strokes = strokes_of(floor);
    let style = STYLE.to_string() + &strokes::style(&strokes);
    let frame = Frame::around(&floor.drawn().collect::<Vec<_>>());
    let mut canvas = Canvas::new(frame, style);
    let (size, radius) = (exact(floor.size), exact(floor.radius));
    canvas.head(
        &floor.counts(),
        &format!("cell size {size}, radius {radius}"),
    );
    if strokes::crowded(&strokes) {
        strokes::draw(&mut canvas, &strokes, |canvas| {
            racks(canvas, floor);
            blockers(canvas, floor);
        });
    } else {
        racks(&mut canvas, floor);
        strokes::draw(&mut canvas, &strokes, |canvas| {
            blockers(canvas, floor);
            blocker_names(canvas, floor);
        });
    }
    points(&mut canvas, &floor.points);
    canvas.legend(&LEGEND);
    told(&mut canvas, floor);
    canvas.finish()
}

fn strokes_of(floor: &Floor) -> Vec<Stroke> {
    let few = floor.blocked().count() <= NUMBERED;
    let mut numbers = 1..;
    let stroke = |line: &Line| Stroke {
        from: line.from,
        to: line.to,
        class: match line.sight {
            Sight::Open => "open",
            Sight::Blocked(_) => "dashed",
            Sight::EndBlocked(_) => "end",
        },
        title: format!("{} to {}: {}", line.from, line.to, line.sight),
        shared: line.sight == Sight::Open,
        blocker: line.blocker(),
        number: line.blocker().filter(|_| few).and_then(|_| numbers.next()),
    };
    let mut strokes: Vec<Stroke> = floor.lines.iter().map(stroke).collect();
    strokes::sort(&mut strokes, &["open", "end", "dashed"]);
    strokes
}

fn racks(canvas: &mut Canvas, floor: &Floor) {
    for cell in &floor.cells {
        canvas.add(&square(canvas, "rack", *cell, &cell.to_string()));
    }
}

fn blockers(canvas: &mut Canvas, floor: &Floor) {
    for (cell, count) in floor.blockers() {
        let title = format!("{cell}: named as blocker {}", times(count));
        canvas.add(&square(canvas, "blocker", cell, &title));
    }
}

fn times(count: usize) -> String {
    match count {
        1 => "once".into(),
        2 => "twice".into(),
        _ => format!("{count} times"),
    }
}

/// A cell with a title; all but racks are drawn in a little, for the sake of their outline.
pub fn square(canvas: &Canvas, class: &str, cell: Cell, title: &str) -> String {
    let inset = if class == "rack" { 0.0 } else { 1.5 };
    let outline = canvas.square(cell, inset);
    format!("<path class=\"{class}\" d=\"{outline}\"><title>{title}</title></path>")
}

/// In each blocker its coordinates, where they fit.
fn blocker_names(canvas: &mut Canvas, floor: &Floor) {
    for cell in floor.blockers().into_keys() {
        let name = cell.to_string();
        if name.len() as f64 * 6.0 < canvas.unit {
            let (x, y) = canvas.centre(cell);
            canvas.add(&text("cell", (x, y + canvas.unit * 0.41), &name));
        }
    }
}

pub fn points(canvas: &mut Canvas, points: &[VisiblePoint]) {
    for VisiblePoint { cell, blocker, .. } in points {
        let place = canvas.centre(*cell);
        canvas.add(&match blocker {
            None => dot(canvas, "point", *cell, &format!("point {cell}")),
            Some(blocker) => {
                let title = format!("point {cell}: blocked by {blocker}");
                taken(place, canvas.centre(*blocker), canvas.dot() * 1.4, &title)
            }
        });
    }
}

pub fn dot(canvas: &Canvas, class: &str, cell: Cell, title: &str) -> String {
    let title = format!("<title>{title}</title>");
    circle(class, canvas.centre(cell), canvas.dot(), &title)
}

/// A blocked point has a cross in it, and a leader to its blocker.
fn taken(place: Place, blocker: Place, radius: f64, title: &str) -> String {
    let leader = path(&[place, blocker]);
    let dot = circle("taken", place, radius, "") + &cross(place, radius * 0.6);
    format!("<g><title>{title}</title><path class=\"leader\" d=\"{leader}\"/>{dot}</g>")
}

/// Where few lines are blocked, each is told with its number; likewise the rest that is not open.
fn told(canvas: &mut Canvas, floor: &Floor) {
    let blocked = floor.blocked().enumerate();
    let blocked = blocked.map(|(i, line)| (numbered((14.0, 0.0), i + 1), line.to_string()));
    let ends = floor.with_blocked_end();
    let ends = ends.map(|line| (Sign::Line.drawn("end"), line.to_string()));
    let taken = floor.points.iter().filter_map(|point| {
        let told = format!("point {} is blocked by {}", point.cell, point.blocker?);
        Some((Sign::CrossedDot.drawn("taken"), told))
    });
    let lists: [Vec<(String, String)>; 3] = [blocked.collect(), ends.collect(), taken.collect()];
    for list in lists.iter().filter(|list| list.len() <= NUMBERED) {
        for (sign, line) in list {
            canvas.below(sign, line);
        }
    }
}
