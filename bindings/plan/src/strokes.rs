//! Sight lines on a canvas: each with its title, and a blocked one with the way to its blocker.
use crate::canvas::Canvas;
use crate::lanes::{lanes, Run};
use crate::shape::{cross, distance, numbered, path, Place, Way, TAG};
use runcedau::Cell;
use std::cmp::Reverse;
use std::collections::BTreeSet;

/// Up to so many lines that lead to a blocker have a number, or at least a cross and a leader.
pub const NUMBERED: usize = 12;
const LED: usize = 60;
/// Pixels between lines that lie side by side.
const ASIDE: f64 = 5.0;
/// Half the width of a cross.
const CROSS: f64 = 4.5;

const STYLE: &str = "\
.open{stroke:#009e73;fill:none}
.dashed{stroke:#d55e00;fill:none;stroke-dasharray:7 4}
.under{stroke:#fff;fill:none;stroke-width:5;stroke-opacity:0.6}
.leader{stroke:#d55e00;fill:none;stroke-width:1.5;stroke-dasharray:2 2.5;pointer-events:none}
.cross{stroke:#d55e00;fill:none;stroke-width:2.2}
.named{fill:none;stroke:#d55e00;stroke-width:4;opacity:0;pointer-events:none}
g:hover>.named{opacity:1}
g:hover>.line{stroke-width:4;stroke-opacity:1}
path.bridge{stroke-width:1;stroke-opacity:0.3}
.tag{fill:#fff;stroke:#d55e00;stroke-width:1.6}
.number{font-size:11px;font-weight:bold;fill:#b34700;text-anchor:middle}
";

pub struct Stroke {
    pub from: Cell,
    pub to: Cell,
    pub class: &'static str,
    pub title: String,
    /// It may lie over others of its kind.
    pub shared: bool,
    pub blocker: Option<Cell>,
    pub number: Option<usize>,
}

/// The more lines, the thinner; of the dashed ones, which lie above, sooner.
pub fn style(strokes: &[Stroke]) -> String {
    let width = |class: &str, few: usize| {
        let lines = strokes
            .iter()
            .filter(|stroke| stroke.class.starts_with(class));
        let (width, opacity) = match lines.count() {
            count if count <= few => (2.0, 1.0),
            count if count <= LED => (1.3, 0.8),
            count if count <= 4 * LED => (1.2, 0.7),
            _ => (0.8, 0.4),
        };
        format!(".{class}{{stroke-width:{width};stroke-opacity:{opacity}}}\n")
    };
    let under = if crowded(strokes) {
        ".under{stroke-opacity:0}\n"
    } else {
        ""
    };
    let (open, dashed) = (width("open", LED), width("dashed", NUMBERED));
    [STYLE, &open, &dashed, under].concat()
}

/// Too many lines to see below them: they run below the racks then.
pub fn crowded(strokes: &[Stroke]) -> bool {
    strokes.iter().filter(|stroke| !stroke.shared).count() > LED
}

/// The classes one above the other in this order, and the shorter lines above the longer.
pub fn sort(strokes: &mut [Stroke], order: &[&str]) {
    let above = |stroke: &Stroke| order.iter().position(|class| *class == stroke.class);
    let length = |stroke: &Stroke| {
        let (dx, dy) = (stroke.to.x - stroke.from.x, stroke.to.y - stroke.from.y);
        dx * dx + dy * dy
    };
    strokes.sort_by_key(|stroke| (above(stroke), Reverse(length(stroke))));
}

/// Draws the lines in this order, then what lies above them, then their numbers and crosses.
pub fn draw(canvas: &mut Canvas, strokes: &[Stroke], above: impl FnOnce(&mut Canvas)) {
    let run = |stroke: &Stroke| Run {
        from: stroke.from,
        to: stroke.to,
        shared: stroke.shared,
    };
    let lanes = lanes(&strokes.iter().map(run).collect::<Vec<_>>());
    let widest = lanes.iter().fold(1, |widest, lane| lane.abs().max(widest));
    let gap = ASIDE.min(canvas.unit * 0.4 / widest as f64);
    let asides: Vec<f64> = lanes.iter().map(|lane| *lane as f64 * gap).collect();
    let marks = Marks::of(canvas, strokes, &asides);
    for (i, stroke) in strokes.iter().enumerate() {
        canvas.add(&group(canvas, stroke, asides[i]));
    }
    above(canvas);
    marks.draw(canvas, strokes);
}

/// A line with its title. One that is not shared has a white ground, which also takes the mouse;
/// while the mouse is there, its blocker is set off.
fn group(canvas: &Canvas, stroke: &Stroke, aside: f64) -> String {
    let (seen, bridges) = canvas.line(&Way::new(stroke.from, stroke.to), aside);
    let class = stroke.class;
    let mut parts = format!("<g><title>{}</title>", stroke.title);
    if !stroke.shared {
        parts += &format!("<path class=\"under\" d=\"{seen}\"/>");
    }
    parts += &format!("<path class=\"line {class}\" d=\"{seen}\"/>");
    if !bridges.is_empty() {
        parts += &format!("<path class=\"{class} bridge\" d=\"{bridges}\"/>");
    }
    if let Some(blocker) = stroke.blocker {
        let outline = canvas.square(blocker, 0.0);
        parts += &format!("<path class=\"named\" d=\"{outline}\"/>");
    }
    parts + "</g>"
}

/// Where the lines have their numbers and crosses, if they have one.
struct Marks {
    places: Vec<Option<Place>>,
}

impl Marks {
    /// The last first: these are the shortest, which have the least choice.
    fn of(canvas: &Canvas, strokes: &[Stroke], asides: &[f64]) -> Marks {
        let leading = strokes.iter().filter_map(|stroke| stroke.blocker).count();
        let mut marks = Marks {
            places: vec![None; strokes.len()],
        };
        let ends = strokes.iter().flat_map(|stroke| [stroke.from, stroke.to]);
        let ends: BTreeSet<Cell> = ends.collect();
        let ends: Vec<Place> = ends.iter().map(|end| canvas.centre(*end)).collect();
        for (i, stroke) in strokes.iter().enumerate().rev() {
            if stroke.number.is_some() || stroke.blocker.is_some() && leading <= LED {
                marks.places[i] = Some(marks.beside(canvas, stroke, asides[i], &ends));
            }
        }
        marks
    }

    /// A place on the line near its blocker, or else at the middle, if possible clear of all ends
    /// and of the marks that are there.
    fn beside(&self, canvas: &Canvas, stroke: &Stroke, aside: f64, ends: &[Place]) -> Place {
        let way = Way::new(stroke.from, stroke.to);
        let nearest = stroke.blocker.map_or(0.5, |blocker| way.nearest(blocker));
        let step = 0.25 / way.length();
        let clear = (2.0 * step).min(0.25);
        let place = |i: i32| {
            let part = nearest + f64::from(i) * step;
            canvas.on_line(&way, part.clamp(clear, 1.0 - clear), aside)
        };
        let places: Vec<Place> = (0..60).flat_map(|i| [i, -i]).map(place).collect();
        let marks: Vec<Place> = self.places.iter().flatten().copied().collect();
        let room = if stroke.number.is_some() { TAG } else { CROSS };
        let apart = |place: &&Place| clear_of(**place, &marks, 2.0 * room + 2.0);
        let best = |place: &&Place| apart(place) && clear_of(**place, ends, TAG + 6.0);
        let found = places.iter().find(best);
        *found
            .or_else(|| places.iter().find(apart))
            .unwrap_or(&places[0])
    }

    /// Leaders to the blockers first.
    fn draw(&self, canvas: &mut Canvas, strokes: &[Stroke]) {
        for (place, stroke) in self.places.iter().zip(strokes) {
            if let Some((place, blocker)) = place.zip(stroke.blocker) {
                let leader = path(&[place, canvas.centre(blocker)]);
                canvas.add(&format!("<path class=\"leader\" d=\"{leader}\"/>"));
            }
        }
        for (place, stroke) in self.places.iter().zip(strokes) {
            match (place, stroke.number) {
                (Some(place), Some(tag)) => canvas.add(&numbered(*place, tag)),
                (Some(place), None) => canvas.add(&cross(*place, CROSS)),
                (None, _) => {}
            }
        }
    }
}

fn clear_of(place: Place, others: &[Place], least: f64) -> bool {
    others.iter().all(|other| distance(place, *other) >= least)
}
