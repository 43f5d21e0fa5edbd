//! Reading a drawing: what `plan FILE` prints, or bare rows of marks.
use crate::frame::Axis;
use crate::text::CUT;
use runcedau::Cell;
use std::collections::HashSet;
use std::fmt;

const OCCUPIED: &str = "#BOX";
const FREE: &str = ".ox";

/// What is wrong with a drawing, and where; both count from 1.
#[derive(Debug, PartialEq, Eq)]
pub struct Wrong {
    line: usize,
    column: usize,
    what: String,
}

impl fmt::Display for Wrong {
    fn fmt(&self, f: &mut fmt::Formatter) -> fmt::Result {
        let Wrong { line, column, what } = self;
        write!(f, "line {line}, column {column}: {what}")
    }
}

fn wrong<T>(line: usize, column: usize, what: impl Into<String>) -> Result<T, Wrong> {
    let what = what.into();
    Err(Wrong { line, column, what })
}

/// A row of marks, each with its column in the text.
struct Row {
    line: usize,
    label: Option<i64>,
    marks: Vec<(usize, char)>,
}

/// What the lines of a drawing say.
#[derive(Default)]
struct Drawing {
    size: Option<f64>,
    radius: Option<f64>,
    columns: Option<Vec<(i64, i64)>>,
    from: Option<Cell>,
    rows: Vec<Row>,
}

/// What is made of a drawing.
#[derive(Debug)]
pub struct Made {
    pub size: Option<f64>,
    pub radius: Option<f64>,
    pub cells: Vec<Cell>,
}

pub fn read(bytes: &[u8]) -> Result<Made, Wrong> {
    let drawing = Drawing::of(text_of(bytes)?)?;
    Ok(Made {
        size: drawing.size,
        radius: drawing.radius,
        cells: drawing.cells()?,
    })
}

/// A map file, for one, is no text.
fn text_of(bytes: &[u8]) -> Result<&str, Wrong> {
    let text = bytes.utf8_chunks().next().map_or("", |chunk| chunk.valid());
    let control = |c: char| c.is_control() && !c.is_whitespace();
    let good = text.find(control).unwrap_or(text.len());
    if good == bytes.len() {
        return Ok(text);
    }
    let line = text[..good].matches('\n').count() + 1;
    let last_line = text[..good].rsplit('\n').next().unwrap_or_default();
    let column = last_line.chars().count() + 1;
    wrong(line, column, "this is no text, as a drawing is")
}

impl Drawing {
    /// The line that begins with `x:`, the labels of the columns, ends the drawing; what follows
    /// is not read.
    fn of(text: &str) -> Result<Drawing, Wrong> {
        let mut drawing = Drawing::default();
        let mut gap = None;
        for (line, text) in (1..).zip(text.lines()) {
            if text.trim_start().starts_with("x:") {
                break;
            }
            if text.trim().is_empty() {
                gap = gap.or((!drawing.rows.is_empty()).then_some(line));
            } else if !drawing.take_setting(line, text)? {
                let row = row_of(line, text);
                if let (Some(empty), None) = (gap, row.label) {
                    let what = "an empty line within the rows: write . for free cells";
                    return wrong(empty, 1, what);
                }
                drawing.rows.push(row);
            }
        }
        Ok(drawing)
    }

    /// Whether the line was a setting: a word, and what follows it.
    fn take_setting(&mut self, line: usize, text: &str) -> Result<bool, Wrong> {
        let setting = |word| Setting::of(word, line, text);
        if let Some(setting) = setting("cell size") {
            setting.keep(&mut self.size, "a number", |value| value.parse().ok())?;
        } else if let Some(setting) = setting("radius") {
            setting.keep(&mut self.radius, "a number", |value| value.parse().ok())?;
        } else if let Some(setting) = setting("columns") {
            setting.keep(&mut self.columns, "'X to X', ascending,", stretches_of)?;
        } else if let Some(setting) = setting("from") {
            setting.keep(&mut self.from, "a cell as X,Y", cell_of)?;
        } else {
            return Ok(false);
        }
        Ok(true)
    }
}

/// What follows a word, and where.
struct Setting<'a> {
    line: usize,
    column: usize,
    value: &'a str,
}

impl<'a> Setting<'a> {
    /// Of a line that begins with the word and a space.
    fn of(word: &str, line: usize, text: &'a str) -> Option<Setting<'a>> {
        let rest = text.trim_start().strip_prefix(word)?;
        let value = rest.strip_prefix(' ')?.trim_start();
        let column = text.chars().count() - value.chars().count() + 1;
        let value = value.trim_end();
        Some(Setting {
            line,
            column,
            value,
        })
    }

    fn keep<T>(
        &self,
        kept: &mut Option<T>,
        wanted: &str,
        read: impl Fn(&str) -> Option<T>,
    ) -> Result<(), Wrong> {
        if kept.is_some() {
            return wrong(self.line, self.column, "this is said a second time");
        }
        *kept = read(self.value);
        if kept.is_none() {
            let what = format!("{wanted} is wanted here, not '{}'", self.value);
            return wrong(self.line, self.column, what);
        }
        Ok(())
    }
}

fn stretches_of(text: &str) -> Option<Vec<(i64, i64)>> {
    let stretch = |part: &str| {
        let (from, to) = part.split_once(" to ")?;
        Some((from.trim().parse().ok()?, to.trim().parse().ok()?))
    };
    let stretches: Vec<(i64, i64)> = text.split(',').map(stretch).collect::<Option<_>>()?;
    let ends: Vec<i64> = stretches
        .iter()
        .flat_map(|(from, to)| [*from, *to])
        .collect();
    let ascend = |(i, two): (usize, &[i64])| two[0] < two[1] || i % 2 == 0 && two[0] == two[1];
    ends.windows(2).enumerate().all(ascend).then_some(stretches)
}

fn cell_of(text: &str) -> Option<Cell> {
    let (x, y) = text.split_once(',')?;
    Some(Cell::new(x.trim().parse().ok()?, y.trim().parse().ok()?))
}

/// A row may begin with its label, a whole number and a space.
fn row_of(line: usize, text: &str) -> Row {
    let first = text.split_whitespace().next().unwrap_or_default();
    let label: Option<i64> = first.parse().ok();
    let labelled = label.map_or(0, |_| {
        text.chars().take_while(|c| c.is_whitespace()).count() + first.len()
    });
    let marks = text.chars().enumerate().skip(labelled);
    let marks = marks.filter(|(_, mark)| !mark.is_whitespace());
    Row {
        line,
        label,
        marks: marks.map(|(i, mark)| (i + 1, mark)).collect(),
    }
}

impl Drawing {
    /// The occupied cells, ascending.
    fn cells(&self) -> Result<Vec<Cell>, Wrong> {
        let bare = self.rows.first().is_some_and(|row| row.label.is_none());
        let axis = Axis {
            stretches: self.stretches(bare)?,
        };
        let mut seen = HashSet::new();
        let mut cells = Vec::new();
        for (i, row) in self.rows.iter().enumerate() {
            if !bare && row.marks.iter().all(|(_, mark)| *mark == CUT) && row.label.is_none() {
                continue;
            }
            let y = self.height(i, row, bare)?;
            if !seen.insert(y) {
                return wrong(row.line, 1, format!("row {y} is there twice"));
            }
            let columns = occupied_columns(row, &axis)?;
            cells.extend(columns.into_iter().map(|x| Cell::new(x, y)));
        }
        cells.sort_unstable();
        Ok(cells)
    }

    /// The columns of the rows; without a word about them they begin at 0.
    fn stretches(&self, bare: bool) -> Result<Vec<(i64, i64)>, Wrong> {
        let line = self.rows.first().map_or(1, |row| row.line);
        match (&self.columns, self.from, bare) {
            (Some(_), _, true) => wrong(line, 1, "a line 'columns' is for rows with labels"),
            (_, Some(_), false) if !self.rows.is_empty() => {
                wrong(line, 1, "a line 'from' is for rows without labels")
            }
            (Some(columns), _, false) => Ok(columns.clone()),
            (None, from, _) => Ok(vec![(from.map_or(0, |cell| cell.x), i64::MAX)]),
        }
    }

    /// The y of a row: its label, or counted from the lowest.
    fn height(&self, i: usize, row: &Row, bare: bool) -> Result<i64, Wrong> {
        match row.label {
            Some(_) if bare => wrong(row.line, 1, "a row with a label after rows without"),
            None if !bare => wrong(row.line, 1, "a row without a label after rows with one"),
            Some(y) => Ok(y),
            None => {
                let lowest = self.from.map_or(0, |cell| cell.y);
                Ok(lowest.saturating_add((self.rows.len() - 1 - i) as i64))
            }
        }
    }
}

fn occupied_columns(row: &Row, axis: &Axis) -> Result<Vec<i64>, Wrong> {
    let mut places = axis.places();
    let mut occupied = Vec::new();
    for (column, mark) in &row.marks {
        match (places.next(), *mark) {
            (Some(Some(x)), mark) if OCCUPIED.contains(mark) => occupied.push(x),
            (Some(Some(_)), mark) if FREE.contains(mark) => {}
            (Some(None), CUT) => {}
            (Some(None), _) => {
                return wrong(row.line, *column, "here columns are left out: write ~")
            }
            (Some(_), CUT) => return wrong(row.line, *column, "no columns are left out here"),
            (Some(_), mark) => {
                let known = "# B O X are occupied, . o x are free";
                return wrong(row.line, *column, format!("'{mark}' is no mark: {known}"));
            }
            (None, _) => return wrong(row.line, *column, "the row has more marks than columns"),
        }
    }
    Ok(occupied)
}
