//! A map with the tables that it is lent.
use oracle::occupancy::Cell;
use oracle::question::{Entry, Question};
use runcedau::ffi::{self, Map};

/// All that is lent: equal maps have equal bytes.
#[derive(Clone, PartialEq)]
pub struct ProvedMap {
    map: Map,
    cells: Vec<u64>,
    points: Vec<u64>,
    statuses: Vec<u8>,
    blockers: Vec<u64>,
    pairs: Vec<u64>,
    confirmed: Vec<u64>,
    full: Vec<u8>,
    corners: Vec<u64>,
    altered: Vec<u8>,
    /// How many changes the last accepted batch confirmed.
    changed: usize,
}

/// Places for a list.
pub struct Lists {
    pub keys: [u64; 1_024],
    pub statuses: [u8; 1_024],
    pub lesser: [u64; 2_016],
    pub greater: [u64; 2_016],
}

impl Default for Lists {
    fn default() -> Self {
        Lists {
            keys: [0; 1_024],
            statuses: [0; 1_024],
            lesser: [0; 2_016],
            greater: [0; 2_016],
        }
    }
}

fn cell(cell: &Cell) -> runcedau::Cell {
    runcedau::Cell::new(cell.x, cell.y)
}

impl ProvedMap {
    pub fn open(size: f64, radius: f64) -> Result<Self, u8> {
        let mut map = ProvedMap {
            map: Map::default(),
            cells: vec![7; 1_024],
            points: vec![7; 64],
            statuses: vec![7; 64],
            blockers: vec![7; 64],
            pairs: vec![7; 4_096],
            confirmed: vec![0; 256],
            full: vec![0; 256],
            corners: vec![0; 2_304],
            altered: vec![0; 2_304],
            changed: 0,
        };
        map.map = Map {
            size,
            radius,
            ..Map::default()
        };
        match map.reopen() {
            0 => Ok(map),
            refusal => Err(refusal),
        }
    }

    /// Opens the map again, empty, with its cell size and its radius.
    pub fn reopen(&mut self) -> u8 {
        let opened = ffi::runcedau_open(
            self.map.size,
            self.map.radius,
            &mut self.cells,
            &mut self.points,
            &mut self.statuses,
            &mut self.blockers,
            &mut self.pairs,
        );
        if opened.refusal == 0 {
            self.map = opened.map;
        }
        opened.refusal
    }

    /// Makes it the map of a map file.
    pub fn read(&mut self, file: &[u8]) -> u8 {
        let opened = ffi::runcedau_lent_read(
            file,
            &mut self.cells,
            &mut self.points,
            &mut self.statuses,
            &mut self.blockers,
            &mut self.pairs,
        );
        if opened.refusal == 0 {
            self.map = opened.map;
        }
        opened.refusal
    }

    /// Whatever batches were answered with.
    pub fn same_tables(&self, other: &Self) -> bool {
        let tables = |map: &'_ Self| {
            let (cells, points) = (map.cells.clone(), map.points.clone());
            let layer = (map.statuses.clone(), map.blockers.clone());
            (map.map, cells, points, layer, map.pairs.clone())
        };
        tables(self) == tables(other)
    }

    /// The key of the first cell that qualifies, or 0.
    pub fn found(&self, question: &Question) -> u64 {
        let point = |p: &oracle::occupancy::Point| runcedau::Point::new(p.x, p.y);
        let (shape, p, q, extent) = match question {
            Question::Point(p) => (0, p, p, 0.0),
            Question::Square(p, width) => (1, p, p, *width),
            Question::Circle(p, radius) => (2, p, p, *radius),
            Question::Sweep(p, q, width) => (3, p, q, *width),
        };
        let found = ffi::runcedau_ask(self.map, &self.cells, shape, point(p), point(q), extent);
        if found.some {
            oracle::key(&Cell::new(found.cell.x, found.cell.y))
        } else {
            0
        }
    }

    /// Three numbers an entry.
    pub fn batch(entries: &[Entry]) -> Vec<i64> {
        entries
            .iter()
            .flat_map(|&(x, y, occupied)| [x, y, occupied as i64])
            .collect()
    }

    pub fn change_cells(&mut self, batch: &[i64]) -> u8 {
        let changed = ffi::runcedau_change_cells(
            self.map,
            &mut self.cells,
            &mut self.points,
            &mut self.statuses,
            &mut self.blockers,
            &mut self.pairs,
            batch,
            &mut self.confirmed,
            &mut self.full,
            &mut self.corners,
            &mut self.altered,
        );
        if changed.refusal == 0 {
            self.map = changed.map;
            self.changed = changed.confirmed;
        }
        changed.refusal
    }

    pub fn change_radius(&mut self, wanted: f64) -> u8 {
        let changed = ffi::runcedau_change_radius(
            self.map,
            &self.cells,
            &mut self.points,
            &mut self.statuses,
            &mut self.blockers,
            &mut self.pairs,
            wanted,
        );
        if changed.refusal == 0 {
            self.map = changed.map;
        }
        changed.refusal
    }

    /// The keys at the front of `out`, where the call is not refused.
    pub fn neighbors<'a>(&self, of_cell: &Cell, out: &'a mut [u64; 64]) -> &'a [u64] {
        let listed = ffi::runcedau_neighbours(self.map, &self.cells, cell(of_cell), out);
        &out[..listed.count]
    }

    pub fn calculate_visibility<'a>(&self, from: &Cell, out: &'a mut [u64; 64]) -> &'a [u64] {
        let listed = ffi::runcedau_visibility(
            self.map,
            &self.cells,
            &self.points,
            &self.statuses,
            &self.blockers,
            &self.pairs,
            cell(from),
            out,
        );
        &out[..listed.count]
    }

    pub fn is_occupied(&self, of_cell: &Cell) -> bool {
        ffi::runcedau_is_occupied(self.map, &self.cells, cell(of_cell)).yes
    }

    /// Each list stands at the front of its places; returned is how many there are.
    pub fn occupied_cells(&self, lists: &mut Lists) -> usize {
        ffi::runcedau_occupied_cells(self.map, &self.cells, &mut lists.keys).count
    }

    pub fn corner_cells(&self, lists: &mut Lists) -> usize {
        ffi::runcedau_corner_cells(self.map, &self.cells, &mut lists.keys, &mut lists.statuses)
            .count
    }

    pub fn free_points(&self, lists: &mut Lists) -> usize {
        ffi::runcedau_free_points(self.map, &self.points, &self.blockers, &mut lists.keys).count
    }

    pub fn open_pairs(&self, lists: &mut Lists) -> usize {
        ffi::runcedau_open_pairs(
            self.map,
            &self.points,
            &self.blockers,
            &self.pairs,
            &mut lists.lesser,
            &mut lists.greater,
        )
        .count
    }

    pub fn cells(&self) -> &[u64] {
        &self.cells[..self.map.cells]
    }

    pub fn confirmed(&self) -> u64 {
        self.changed as u64
    }

    /// Each point's key with its status and its blocker, 0 for none.
    pub fn points(&self) -> impl Iterator<Item = (u64, u8, u64)> + '_ {
        (0..self.map.points).map(|i| (self.points[i], self.statuses[i], self.blockers[i]))
    }

    /// Each pair from either end, with 1 for an open one, or its blocker.
    pub fn pairs(&self) -> impl Iterator<Item = (u64, u64, u64)> + '_ {
        let all = (0..self.map.points).flat_map(|i| (0..self.map.points).map(move |j| (i, j)));
        all.map(|(i, j)| (self.points[i], self.points[j], self.pairs[64 * i + j]))
            .filter(|pair| pair.2 != 0)
    }

    /// What stands behind the used places is zero.
    pub fn is_canonical(&self) -> bool {
        let behind = |t: &[u64], n: usize| t[n..].iter().all(|&k| k == 0);
        let square = (0..64).all(|i| {
            (0..64)
                .all(|j| i < self.map.points && j < self.map.points || self.pairs[64 * i + j] == 0)
        });
        behind(&self.cells, self.map.cells)
            && behind(&self.points, self.map.points)
            && behind(&self.blockers, self.map.points)
            && self.statuses[self.map.points..].iter().all(|&s| s == 0)
            && square
    }
}
