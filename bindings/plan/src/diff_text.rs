//! What changed, as characters: the drawing of the later map with the changed cells, then lists.
use crate::diff::{Difference, Kind, LineChange};
use crate::frame::Frame;
use crate::text::{self, MARKS};
use runcedau::Cell;
use std::fmt::Display;

const CLOSED: char = '+';
const FREED: char = '-';
/// Escapes of terminals.
const RED: &str = "\x1b[1;31m";
const GREEN: &str = "\x1b[1;32m";
const PLAIN: &str = "\x1b[0m";

pub fn draw(difference: &Difference, coloured: bool) -> String {
    let paint = Paint { coloured };
    let mut out = drawing(difference, &paint);
    out += &format!("{}\n", difference.summary());
    out += &difference
        .notes()
        .iter()
        .map(|note| format!("{note}\n"))
        .collect::<String>();
    out += &paint.cells("cells closed", RED, &difference.closed);
    out += &paint.cells("cells freed", GREEN, &difference.freed);
    let points = difference
        .points
        .iter()
        .filter(|point| point.before != point.after);
    out += &paint.list("points", "", points);
    let lines = |kind: Kind| difference.of_kind(kind).collect::<Vec<&LineChange>>();
    out += &paint.list("sight lines lost", RED, lines(Kind::Lost));
    out += &paint.list("sight lines gained", GREEN, lines(Kind::Gained));
    out + &paint.list(
        "other changes of pairs, not open before or now",
        "",
        lines(Kind::Other),
    )
}

fn drawing(difference: &Difference, paint: &Paint) -> String {
    let drawn = difference.before.drawn().chain(difference.after.drawn());
    let frame = Frame::around(&drawn.collect::<Vec<_>>());
    let mut marks = text::marks(&difference.after);
    marks.extend(difference.closed.iter().map(|cell| (*cell, CLOSED)));
    marks.extend(difference.freed.iter().map(|cell| (*cell, FREED)));
    let mark = |cell: Cell| match marks.get(&cell).copied().unwrap_or('.') {
        CLOSED => paint.painted(RED, CLOSED),
        FREED => paint.painted(GREEN, FREED),
        mark => mark.to_string(),
    };
    let known = [&[(CLOSED, "closed"), (FREED, "freed")][..], &MARKS].concat();
    let legend = text::legend(&known, marks.values());
    format!("{}\n{legend}\n", text::drawing(&frame, mark))
}

struct Paint {
    coloured: bool,
}

impl Paint {
    fn painted(&self, colour: &str, what: impl Display) -> String {
        if self.coloured && !colour.is_empty() {
            format!("{colour}{what}{PLAIN}")
        } else {
            what.to_string()
        }
    }

    /// Some cells in each line.
    fn cells(&self, head: &str, colour: &str, cells: &[Cell]) -> String {
        let line = |cells: &[Cell]| {
            let names: Vec<String> = cells.iter().map(Cell::to_string).collect();
            format!("  {}\n", self.painted(colour, names.join("  ")))
        };
        let lines: String = cells.chunks(10).map(line).collect();
        if lines.is_empty() {
            return lines;
        }
        format!("\n{head}: {}\n{lines}", cells.len())
    }

    /// A head with the count, and a line for each.
    fn list(
        &self,
        head: &str,
        colour: &str,
        told: impl IntoIterator<Item = impl Display>,
    ) -> String {
        let line = |one| format!("  {}\n", self.painted(colour, one));
        let lines: Vec<String> = told.into_iter().map(line).collect();
        if lines.is_empty() {
            return String::new();
        }
        format!("\n{head}: {}\n{}", lines.len(), lines.concat())
    }
}
