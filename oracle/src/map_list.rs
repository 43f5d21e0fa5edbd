//! Lists of calls on a map, as programs replay them: the lines with what the Rust's own `Visibility`, ordered maps, answers
//! behind the refusals of RULES 4.
//!
//! A line is a letter and its operands:
//!
//! - `o` size radius: a new empty map, and no entry is pending
//! - `+` x y, `-` x y: one more entry of the pending batch, that the cell be occupied, or free
//! - `b`: the pending batch is applied, and none is pending then
//! - `r` radius: the radius is changed
//!
//! Decimals answer it: an entry none; an opening and a change of the radius the refusal, the cells and the points; a batch
//! the refusal, 1 or 0 for whether something was confirmed, how many changes were confirmed, how many statuses changed,
//! the cells and the points. In `stdout` a line for each change follows a batch's, `=` x y o, then `^` x y status.
use crate::judged::Changes;
use crate::judged_map::JudgedMap;
use crate::occupancy::Cell;
use crate::program::Failure;
use crate::question::Entry;
use crate::vectors::{enough, pattern, tell, Vectors};
use crate::Random;
use std::collections::BTreeMap;

pub enum Call {
    Opening,
    /// With what it did, or its refusal.
    Batch(Vec<Entry>, Result<Changes, u64>),
    Radius,
}

/// A call that was made, and the map before it.
pub struct Step {
    pub before: Option<JudgedMap>,
    pub call: Call,
}

pub struct MapList {
    pub random: Random,
    pub vectors: Vectors,
    /// None once an opening was refused.
    pub map: Option<JudgedMap>,
    pending: Vec<Entry>,
    pub counts: BTreeMap<String, usize>,
    /// What follows a call.
    after: fn(&mut MapList, Step),
}

/// The lines.
impl MapList {
    pub fn new(seed: u64, after: fn(&mut MapList, Step)) -> Self {
        MapList {
            random: Random::seeded(seed),
            vectors: Vectors::default(),
            map: None,
            pending: Vec::new(),
            counts: BTreeMap::new(),
            after,
        }
    }

    pub fn count(&mut self, name: impl Into<String>, more: usize) {
        *self.counts.entry(name.into()).or_default() += more;
    }

    pub fn line(&mut self, letter: char, operands: &[u64], answer: &[i64]) {
        self.vectors.push_counted(letter, operands, answer);
        self.count(format!("lines {letter}"), 1);
    }

    /// An opening or a change of the radius, and what the call gave.
    fn plain(&mut self, letter: char, operands: &[f64], calls: &str, outcome: Result<(), u64>) {
        let answer = match (outcome, &self.map) {
            (Ok(()), Some(map)) => [0, map.cells() as i64, map.points() as i64],
            (outcome, _) => [outcome.err().unwrap_or(0) as i64, 0, 0],
        };
        let operands: Vec<u64> = operands.iter().map(|x| pattern(*x)).collect();
        self.line(letter, &operands, &answer);
        self.count(calls, 1);
        if let Err(refusal) = outcome {
            self.count(format!("{calls} refused with {refusal}"), 1);
        }
    }

    /// The list, where there is enough of everything and it is short enough.
    pub fn finish(self, needed: &[(&str, usize)], most: [usize; 2]) -> Result<Vectors, Failure> {
        tell(&self.counts);
        self.vectors.within(most)?;
        enough(&self.counts, needed)?;
        Ok(self.vectors)
    }
}

/// The calls.
impl MapList {
    fn end(&mut self, before: Option<JudgedMap>, call: Call) {
        (self.after)(self, Step { before, call });
    }

    pub fn open(&mut self, size: f64, radius: f64) {
        self.pending.clear();
        let before = self.map.take();
        let opened = JudgedMap::open(size, radius);
        let outcome = opened.as_ref().map(|_| ()).map_err(|refusal| *refusal);
        if outcome.is_ok() {
            let yard = (1..=10).any(|n| size == 2f64.powi(n)) && radius == radius.floor();
            let class = if yard { "in" } else { "outside of" };
            self.count(format!("runs {class} the yard class"), 1);
            self.count("runs", 1);
        }
        self.map = opened.ok();
        self.plain('o', &[size, radius], "openings", outcome);
        self.end(before, Call::Opening);
    }

    pub fn entry(&mut self, (x, y, occupied): Entry) {
        self.pending.push((x, y, occupied));
        let letter = if occupied { '+' } else { '-' };
        self.line(letter, &[x as u64, y as u64], &[]);
    }

    pub fn batch(&mut self, batch: &[Entry]) {
        for entry in batch {
            self.entry(*entry);
        }
        self.apply();
    }

    fn apply(&mut self) {
        let batch = std::mem::take(&mut self.pending);
        let before = self.map.clone();
        let outcome = self.map.as_mut().map_or(Err(1), |map| map.change(&batch));
        self.count("batches", 1);
        match &outcome {
            Ok(changes) => self.applied(changes),
            Err(refusal) => {
                self.count(format!("batches refused with {refusal}"), 1);
                self.line('b', &[], &[*refusal as i64, 0, 0, 0, 0, 0]);
            }
        }
        self.end(before, Call::Batch(batch, outcome));
    }

    fn applied(&mut self, changes: &Changes) {
        let (confirmed, corners) = (changes.confirmed.len(), changes.corners.len());
        let points = self.map.as_ref().map_or(0, JudgedMap::points);
        let counts = [confirmed, corners, changes.cells, points].map(|n| n as i64);
        let yes = (confirmed > 0) as i64;
        let answer = [&[0, yes][..], &counts].concat();
        self.line('b', &[], &answer);
        self.vectors.answer_changes(changes);
        self.count("changes confirmed", confirmed);
        self.count("changes of corners", corners);
    }

    pub fn radius(&mut self, radius: f64) {
        let before = self.map.clone();
        let outcome = self
            .map
            .as_mut()
            .map_or(Err(1), |map| map.change_radius(radius));
        self.plain('r', &[radius], "changes of the radius", outcome);
        self.end(before, Call::Radius);
    }

    pub fn occupied_cell(&mut self) -> Option<Cell> {
        let map = self.map.as_ref()?;
        let cells = map.occupied_cells();
        (!cells.is_empty()).then(|| self.random.pick(&cells))
    }
}
