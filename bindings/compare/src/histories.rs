//! Random histories: an opening, then batches and radius changes, after each of which every list is asked for, and questions of every kind.
use crate::asked::{Asked, LISTS};
use oracle::judged::MOST_COORDINATE;
use oracle::occupancy::{Cell, Point};
use oracle::question::Question;
use oracle::runs::{batch, radius, SIZES};
use oracle::Random;

/// A floor's cell size, where it lies, and how far it goes.
pub struct Floor {
    size: f64,
    base: Cell,
    extent: u64,
    entries: u64,
}

/// Rarely any pattern, or one at which steps go wrong first.
fn awkward(random: &mut Random) -> f64 {
    match random.below(3) {
        0 => f64::from_bits(random.next()),
        1 => random.pick(&[
            f64::NAN,
            f64::INFINITY,
            -f64::INFINITY,
            -0.0,
            1e300,
            -1.0,
            1e-320,
        ]),
        _ => random.unit() * 1e-8,
    }
}

impl Floor {
    pub fn any(random: &mut Random) -> Self {
        let size = match random.below(2) {
            0 => random.pick(&SIZES),
            _ => 2f64.powi(random.below(10) as i32 + 1),
        };
        let far = MOST_COORDINATE;
        let (x, y) = random.pick(&[
            (0, 0),
            (0, 0),
            (0, 0),
            (-5, 3),
            (far - 3, 3 - far),
            (3 - far, 77),
        ]);
        let (extent, entries) =
            random.pick(&[(2, 4), (2, 20), (3, 6), (4, 10), (6, 5), (10, 3), (14, 8)]);
        Floor {
            size,
            base: Cell::new(x, y),
            extent,
            entries,
        }
    }

    fn cell(&self, random: &mut Random) -> Cell {
        let wide = self.extent + 4;
        let [x, y] = [(); 2].map(|_| random.below(2 * wide + 1) as i64 - wide as i64);
        match random.below(60) {
            0 => Cell::new(random.next() as i64, random.next() as i64),
            1 => Cell::new(MOST_COORDINATE + random.below(70) as i64, y),
            _ => self.base.shifted(x, y),
        }
    }

    /// On the middle or the border of a cell, or anywhere.
    fn point(&self, random: &mut Random) -> Point {
        let cell = self.cell(random);
        let [x, y] = [cell.x, cell.y].map(|n| {
            let any = random.unit().abs();
            let part = random.pick(&[0.5, 0.5, 0.0, 1.0, any]);
            match random.below(300) {
                0 => awkward(random),
                _ => self.size * (n as f64 + part),
            }
        });
        Point::new(x, y)
    }

    fn length(&self, random: &mut Random) -> f64 {
        match random.below(200) {
            0 => awkward(random),
            n if n < 100 => self.size * random.pick(&[0.0, 0.5, 0.78125, 1.0, 1.5, 2.0, 3.0]),
            _ => self.size * 4.0 * random.unit().abs(),
        }
    }

    fn radius(&self, random: &mut Random) -> f64 {
        let any = radius(random, self.size);
        if random.below(2) == 0 {
            any
        } else {
            any.floor()
        }
    }

    pub fn opening(&self, random: &mut Random) -> Asked {
        match random.below(100) {
            0 => Asked::Open(awkward(random), self.radius(random)),
            1 => Asked::Open(self.size, awkward(random)),
            _ => Asked::Open(self.size, self.radius(random)),
        }
    }

    pub fn change(&self, random: &mut Random) -> Asked {
        if random.below(7) == 0 {
            return Asked::Radius(self.radius(random));
        }
        let about = batch(random, self.extent, self.entries).into_iter();
        let mut entries: Vec<_> = about
            .map(|(x, y, o)| (x + self.base.x, y + self.base.y, o))
            .collect();
        match random.below(60) {
            0 => entries.reverse(),
            1 => entries.push((MOST_COORDINATE + 1, 0, true)),
            2 => entries.clear(),
            _ => entries.retain(|(x, y, _)| x.abs().max(y.abs()) <= MOST_COORDINATE),
        }
        Asked::Batch(entries)
    }

    fn shape(&self, random: &mut Random) -> Asked {
        let (p, q, extent) = (self.point(random), self.point(random), self.length(random));
        Asked::Shape(match random.below(4) {
            0 => Question::Point(p),
            1 => Question::Square(p, extent),
            2 => Question::Circle(p, extent),
            _ => Question::Sweep(p, q, extent),
        })
    }

    /// Of no map.
    fn plain(&self, random: &mut Random) -> Asked {
        let (p, q, r) = (self.point(random), self.point(random), self.point(random));
        let (odd, extent) = (awkward(random), self.length(random));
        let x = random.pick(&[p.x, q.x, r.x, odd]);
        let mut near = self.cell(random);
        [near.x, near.y] = [near.x, near.y].map(|n| n % (1 << 31));
        match random.below(12) {
            0 => Asked::Floor(x / self.size),
            1 => Asked::Ceil(x / self.size),
            2 => Asked::Abs(x),
            3 => Asked::Sqrt(x.abs()),
            4 => Asked::Shift(extent, self.size),
            5 => Asked::CellOf(self.size, p),
            6 => Asked::Centre(self.size, self.cell(random)),
            7 => Asked::BottomLeft(self.size, self.cell(random)),
            8 => Asked::Distance(p, q, r),
            9 => Asked::Vertical(p, q, x),
            10 => Asked::Horizontal(p, q, r.y),
            _ => Asked::Near(self.size, extent, p, q, near),
        }
    }

    /// Every list, and some questions of each kind.
    pub fn questions(&self, random: &mut Random) -> Vec<Asked> {
        let mut asked: Vec<Asked> = LISTS.map(Asked::List).into();
        for _ in 0..3 {
            asked.push(self.shape(random));
            asked.push(Asked::Visibility(self.cell(random)));
            asked.push(Asked::Neighbours(self.cell(random)));
            asked.push(Asked::Occupied(self.cell(random)));
            asked.push(self.plain(random));
        }
        asked
    }
}
