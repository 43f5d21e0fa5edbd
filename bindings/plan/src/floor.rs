//! A map's lists, gathered once for drawing, and what is to be said of each pair.
use runcedau::{Cell, Map, Pair, VisiblePoint};
use std::collections::{BTreeMap, HashMap, HashSet};
use std::fmt;

/// Whether a pair is open, or else why not (RULES 1.8).
#[derive(Clone, Debug, PartialEq, Eq)]
pub enum Sight {
    Open,
    Blocked(Cell),
    /// Each blocked end, and its blocker.
    EndBlocked(Vec<(Cell, Cell)>),
}

impl fmt::Display for Sight {
    fn fmt(&self, f: &mut fmt::Formatter) -> fmt::Result {
        match self {
            Sight::Open => write!(f, "open"),
            Sight::Blocked(blocker) => write!(f, "blocked by {blocker}"),
            Sight::EndBlocked(ends) => {
                let told = |(end, blocker): &(Cell, Cell)| format!("{end} is blocked by {blocker}");
                let told: Vec<String> = ends.iter().map(told).collect();
                write!(f, "not open: its end {}", told.join(", its end "))
            }
        }
    }
}

/// A pair as it is drawn: a line from its lesser to its greater point.
#[derive(Clone, Debug, PartialEq, Eq)]
pub struct Line {
    pub from: Cell,
    pub to: Cell,
    pub sight: Sight,
}

impl Line {
    pub fn ends(&self) -> (Cell, Cell) {
        (self.from, self.to)
    }

    pub fn blocker(&self) -> Option<Cell> {
        match self.sight {
            Sight::Blocked(blocker) => Some(blocker),
            _ => None,
        }
    }
}

impl fmt::Display for Line {
    fn fmt(&self, f: &mut fmt::Formatter) -> fmt::Result {
        write!(f, "{} to {} is {}", self.from, self.to, self.sight)
    }
}

/// What a map says.
pub struct Floor {
    pub size: f64,
    pub radius: f64,
    pub cells: Vec<Cell>,
    pub points: Vec<VisiblePoint>,
    pub lines: Vec<Line>,
}

impl Floor {
    pub fn of(map: &Map) -> Floor {
        let points = map.points();
        let blocked = points
            .iter()
            .filter_map(|point| Some((point.cell, point.blocker?)))
            .collect();
        let open: HashSet<(Cell, Cell)> = map.iter_edges().collect();
        let line = |pair: Pair| Line {
            from: pair.lesser,
            to: pair.greater,
            sight: sight_of(&pair, &open, &blocked),
        };
        Floor {
            size: map.cell_size(),
            radius: map.agent_radius(),
            cells: map.occupied_cells(),
            lines: map.pairs().into_iter().map(line).collect(),
            points,
        }
    }

    pub fn open(&self) -> usize {
        let open = |line: &&Line| line.sight == Sight::Open;
        self.lines.iter().filter(open).count()
    }

    /// The lines with a blocker of their own.
    pub fn blocked(&self) -> impl Iterator<Item = &Line> {
        self.lines.iter().filter(|line| line.blocker().is_some())
    }

    /// The lines that have no blocker, but a blocked end.
    pub fn with_blocked_end(&self) -> impl Iterator<Item = &Line> {
        let end = |line: &&Line| matches!(line.sight, Sight::EndBlocked(_));
        self.lines.iter().filter(end)
    }

    /// Each blocker of a line or of a point, with how many of them it blocks.
    pub fn blockers(&self) -> BTreeMap<Cell, usize> {
        let of_lines = self.lines.iter().filter_map(Line::blocker);
        let of_points = self.points.iter().filter_map(|point| point.blocker);
        let mut counts = BTreeMap::new();
        for blocker in of_lines.chain(of_points) {
            *counts.entry(blocker).or_insert(0) += 1;
        }
        counts
    }

    /// Every cell in which something is drawn.
    pub fn drawn(&self) -> impl Iterator<Item = Cell> + '_ {
        let points = self.points.iter().map(|point| point.cell);
        self.cells.iter().copied().chain(points)
    }

    pub fn counts(&self) -> String {
        format!(
            "{}, {}, {}, {} open",
            counted(self.cells.len(), "cell"),
            counted(self.points.len(), "point"),
            counted(self.lines.len(), "pair"),
            self.open()
        )
    }
}

fn sight_of(pair: &Pair, open: &HashSet<(Cell, Cell)>, blocked: &HashMap<Cell, Cell>) -> Sight {
    if let Some(blocker) = pair.blocker {
        return Sight::Blocked(blocker);
    }
    if open.contains(&(pair.lesser, pair.greater)) {
        return Sight::Open;
    }
    let ends = [pair.lesser, pair.greater].into_iter();
    Sight::EndBlocked(
        ends.filter_map(|end| Some((end, *blocked.get(&end)?)))
            .collect(),
    )
}

/// `1 cell`, `2 cells`.
pub fn counted(count: usize, word: &str) -> String {
    let plural = if count == 1 { "" } else { "s" };
    format!("{count} {word}{plural}")
}

/// The shortest decimal that reads back as the same float.
pub fn exact(number: f64) -> String {
    let plain = number.to_string();
    if plain.len() > 24 {
        return format!("{number:e}");
    }
    plain
}
