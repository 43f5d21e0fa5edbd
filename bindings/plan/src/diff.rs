//! What changed from one map to another.
use crate::floor::{counted, exact, Floor, Line, Sight};
use runcedau::{Cell, VisiblePoint};
use std::collections::{BTreeMap, BTreeSet};
use std::fmt;

/// Two floors of one cell size, and how they differ.
pub struct Difference {
    pub before: Floor,
    pub after: Floor,
    pub closed: Vec<Cell>,
    pub freed: Vec<Cell>,
    pub points: Vec<PointChange>,
    pub lines: Vec<LineChange>,
}

/// A pair of either floor, ascending; nothing where it is no pair.
pub struct LineChange {
    pub from: Cell,
    pub to: Cell,
    pub before: Option<Sight>,
    pub after: Option<Sight>,
}

/// A point of either floor; nothing where it is no point, and else its blocker.
pub struct PointChange {
    pub cell: Cell,
    pub before: Option<Option<Cell>>,
    pub after: Option<Option<Cell>>,
}

/// What a change of a pair means to somebody who looks along it.
#[derive(Clone, Copy, Debug, PartialEq, Eq)]
pub enum Kind {
    Lost,
    Gained,
    /// Open neither before nor after, and not told the same.
    Other,
    Same,
}

impl Difference {
    /// Cells of two sizes are not the same places, and one drawing of both would tell something
    /// false: so there is none.
    pub fn of(before: Floor, after: Floor) -> Result<Difference, String> {
        if before.size != after.size {
            let (a, b) = (exact(before.size), exact(after.size));
            let why = "a cell of one map is not the same place on the other";
            return Err(format!("the cell sizes differ, {a} and {b}: {why}"));
        }
        let cells = |floor: &Floor| floor.cells.iter().copied().collect::<BTreeSet<Cell>>();
        let (was, is) = (cells(&before), cells(&after));
        Ok(Difference {
            closed: is.difference(&was).copied().collect(),
            freed: was.difference(&is).copied().collect(),
            points: point_changes(&before.points, &after.points),
            lines: line_changes(&before.lines, &after.lines),
            before,
            after,
        })
    }

    pub fn of_kind(&self, kind: Kind) -> impl Iterator<Item = &LineChange> {
        self.lines.iter().filter(move |line| line.kind() == kind)
    }

    pub fn nothing(&self) -> bool {
        let cells = self.closed.is_empty() && self.freed.is_empty();
        let points = self.points.iter().all(|point| point.before == point.after);
        let radius = exact(self.before.radius) == exact(self.after.radius);
        cells && points && radius && self.lines.iter().all(|line| line.kind() == Kind::Same)
    }

    /// Words about the whole: nothing changed, another radius, and a word where a blocker differs
    /// on its own, since cells and radius alone do not give it.
    pub fn notes(&self) -> Vec<String> {
        let mut notes = Vec::new();
        let (was, is) = (exact(self.before.radius), exact(self.after.radius));
        let same_cells = self.closed.is_empty() && self.freed.is_empty();
        if self.nothing() {
            notes.push("Nothing changed.".into());
        } else if was != is {
            notes.push(format!("The radius was {was} and is {is}."));
        } else if same_cells {
            notes.push(
                "Only blockers differ: they also depend on the order of past changes.".into(),
            );
        }
        if !same_cells && self.lines.iter().any(LineChange::only_its_blocker) {
            let where_only = "Where only the blocker differs: blockers also depend on";
            notes.push(format!("{where_only} the order of past changes."));
        }
        notes
    }

    pub fn summary(&self) -> String {
        let count = |test: fn(&PointChange) -> bool| self.points.iter().filter(|p| test(p)).count();
        format!(
            "{} closed, {} freed; {} came, {} went; {} lost, {} gained",
            counted(self.closed.len(), "cell"),
            self.freed.len(),
            counted(count(|point| point.before.is_none()), "point"),
            count(|point| point.after.is_none()),
            counted(self.of_kind(Kind::Lost).count(), "sight line"),
            self.of_kind(Kind::Gained).count()
        )
    }
}

fn point_changes(before: &[VisiblePoint], after: &[VisiblePoint]) -> Vec<PointChange> {
    let told = |points: &[VisiblePoint]| -> BTreeMap<Cell, Option<Cell>> {
        points
            .iter()
            .map(|point| (point.cell, point.blocker))
            .collect()
    };
    joined(told(before), told(after))
        .into_iter()
        .map(|(cell, before, after)| PointChange {
            cell,
            before,
            after,
        })
        .collect()
}

fn line_changes(before: &[Line], after: &[Line]) -> Vec<LineChange> {
    let told = |lines: &[Line]| -> BTreeMap<(Cell, Cell), Sight> {
        lines
            .iter()
            .map(|line| (line.ends(), line.sight.clone()))
            .collect()
    };
    let change = |((from, to), before, after)| LineChange {
        from,
        to,
        before,
        after,
    };
    joined(told(before), told(after))
        .into_iter()
        .map(change)
        .collect()
}

/// Every key of the two, with what each says of it.
fn joined<K: Ord + Copy, V>(
    mut before: BTreeMap<K, V>,
    mut after: BTreeMap<K, V>,
) -> Vec<(K, Option<V>, Option<V>)> {
    let keys: BTreeSet<K> = before.keys().chain(after.keys()).copied().collect();
    let both = |key: K| (key, before.remove(&key), after.remove(&key));
    keys.into_iter().map(both).collect()
}

impl LineChange {
    pub fn kind(&self) -> Kind {
        let open = Some(Sight::Open);
        match (self.before == open, self.after == open) {
            (true, false) => Kind::Lost,
            (false, true) => Kind::Gained,
            _ if self.before == self.after => Kind::Same,
            _ => Kind::Other,
        }
    }

    /// Open before, and a pair still, but not open now.
    pub fn became_blocked(&self) -> bool {
        self.kind() == Kind::Lost && self.after.is_some()
    }

    /// Blocked before and now, by different cells.
    fn only_its_blocker(&self) -> bool {
        let blocked = |sight: &Option<Sight>| matches!(sight, Some(Sight::Blocked(_)));
        self.kind() == Kind::Other && blocked(&self.before) && blocked(&self.after)
    }

    /// The blocker that a pair has now.
    pub fn blocker(&self) -> Option<Cell> {
        match self.after {
            Some(Sight::Blocked(blocker)) => Some(blocker),
            _ => None,
        }
    }
}

impl fmt::Display for LineChange {
    fn fmt(&self, f: &mut fmt::Formatter) -> fmt::Result {
        write!(f, "{} to {} ", self.from, self.to)?;
        match (&self.before, &self.after) {
            (None, Some(after)) => write!(f, "came and is {after}"),
            (Some(before), None) => write!(f, "went, it was {before}"),
            (Some(Sight::Open), Some(after)) => write!(f, "is now {after}"),
            (Some(before), Some(after)) if before == after => write!(f, "is still {after}"),
            (Some(before), Some(after)) => write!(f, "is now {after}, it was {before}"),
            (None, None) => write!(f, "is no pair"),
        }
    }
}

impl fmt::Display for PointChange {
    fn fmt(&self, f: &mut fmt::Formatter) -> fmt::Result {
        write!(f, "point {} ", self.cell)?;
        match (self.before, self.after) {
            (None, Some(None)) => write!(f, "came"),
            (None, Some(Some(blocker))) => write!(f, "came and is blocked by {blocker}"),
            (Some(_), None) => write!(f, "went"),
            (Some(None), Some(Some(blocker))) => write!(f, "is now blocked by {blocker}"),
            (Some(Some(was)), Some(None)) => write!(f, "is now free, it was blocked by {was}"),
            (Some(Some(was)), Some(Some(is))) if was != is => {
                write!(f, "is now blocked by {is}, it was blocked by {was}")
            }
            _ => write!(f, "is as it was"),
        }
    }
}
