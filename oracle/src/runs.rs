//! Random runs on maps, as comparisons and vectors take them.
use crate::judged::MOST_COORDINATE;
use crate::judged_map::JudgedMap;
use crate::map_list::MapList;
use crate::occupancy::Cell;
use crate::question::Entry;
use crate::Random;
use std::collections::BTreeMap;

pub const SIZES: [f64; 8] = [1.0 / 1024.0, 0.1, 1.0, 2.0, 8.0, 256.0, 1000.1, 65_536.0];

/// A radius of some cells, whole numbers among them, and some that are refused.
pub fn radius(random: &mut Random, size: f64) -> f64 {
    let part = random.unit().abs();
    match random.below(60) {
        0 => -1.0,
        1 => f64::NAN,
        2 => 70.0 * size,
        n if n < 30 => size * random.pick(&[0.0, -0.0, 0.5, 0.78125, 1.0, 1.5, 2.5]),
        n if n < 45 => (size * 3.0 * part).floor(),
        _ => size * 3.0 * part,
    }
}

/// Entries about the origin, in order; three of five occupy.
pub fn batch(random: &mut Random, extent: u64, most: u64) -> Vec<Entry> {
    let mut cells = BTreeMap::new();
    for _ in 0..1 + random.below(most) {
        let [x, y] = [(); 2].map(|_| random.below(2 * extent + 1) as i64 - extent as i64);
        cells.insert((x, y), random.below(5) < 3);
    }
    cells
        .into_iter()
        .map(|((x, y), full)| (x, y, full))
        .collect()
}

impl MapList {
    /// Powers of two and whole radii, or any.
    pub fn open_any(&mut self, yard: bool) {
        let (power, cells) = (self.random.below(10) as i32 + 1, self.random.unit().abs());
        if yard {
            let size = 2f64.powi(power);
            self.open(size, (3.0 * cells * size).floor());
        } else {
            let size = self.random.pick(&SIZES);
            let radius = radius(&mut self.random, size);
            let good = radius >= 0.0 && radius <= 63.0 * size;
            self.open(size, if good { radius } else { 0.3 * size });
        }
    }

    /// Most of them near the origin: far away lines are longer.
    pub fn base(&mut self) -> Cell {
        let (n, far) = (self.random.below(12), MOST_COORDINATE);
        let place = [(far - 3, 3 - far), (-5, 3), (3 - far, 77)];
        place
            .get(n as usize)
            .map_or(Cell::new(0, 0), |at| (*at).into())
    }

    /// Half of them free some cell. Now and then one is refused.
    pub fn any_batch(&mut self, base: Cell, extent: u64, most: u64) {
        let about = batch(&mut self.random, extent, most).into_iter();
        let mut cells: BTreeMap<(i64, i64), bool> = about
            .map(|(x, y, occupied)| ((base.x + x, base.y + y), occupied))
            .filter(|((x, y), _)| x.abs().max(y.abs()) <= MOST_COORDINATE)
            .collect();
        if self.random.below(2) == 0 {
            cells.extend(self.occupied_cell().map(|cell| ((cell.x, cell.y), false)));
        }
        let mut batch: Vec<Entry> = cells.into_iter().map(|((x, y), o)| (x, y, o)).collect();
        match self.random.below(40) {
            0 => batch.reverse(),
            1 => batch.push((MOST_COORDINATE + 1, 0, true)),
            _ => (),
        }
        self.batch(&batch);
    }

    pub fn any_radius(&mut self, yard: bool) {
        let size = self.map.as_ref().map_or(1.0, JudgedMap::size);
        let any = radius(&mut self.random, size);
        self.radius(if yard { any.floor() } else { any });
    }

    pub fn run(&mut self, yard: bool, extent: u64, most: u64, steps: u64) {
        self.open_any(yard);
        let base = self.base();
        for _ in 0..steps {
            if self.random.below(7) == 0 {
                self.any_radius(yard);
            } else {
                self.any_batch(base, extent, most);
            }
        }
    }
}
