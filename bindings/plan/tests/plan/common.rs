//! Floors for the tests: the examples, and random ones that are the same in every run.
use runcedau::{Cell, Map};

pub fn examples() -> Vec<(String, Map)> {
    let folder = concat!(env!("CARGO_MANIFEST_DIR"), "/../../examples");
    let mut found = Vec::new();
    for entry in std::fs::read_dir(folder).expect("the examples") {
        let path = entry.expect("an example").path();
        let name = path.display().to_string();
        if name.ends_with(".map") {
            let file = std::fs::read(&path).expect("a file");
            found.extend(Map::read(&file).ok().map(|map| (name, map)));
        }
    }
    assert!(found.len() >= 6, "{} examples", found.len());
    found
}

/// A linear congruence, of which the high bits are used.
pub struct Dice(pub u64);

impl Dice {
    pub fn below(&mut self, bound: i64) -> i64 {
        let next = self.0.wrapping_mul(6_364_136_223_846_793_005);
        self.0 = next.wrapping_add(1_442_695_040_888_963_407);
        ((self.0 >> 33) as i64) % bound
    }

    fn one_of<T: Copy>(&mut self, list: &[T]) -> T {
        list[self.below(list.len() as i64) as usize]
    }

    /// Racks, some of them far apart, and a past: some cells are freed again.
    pub fn floor(&mut self) -> Map {
        let size = self.one_of(&[256.0, 0.1, 1.0 / 3.0, 65536.0, 1.0 / 1024.0]);
        let parts = [0.0, -0.0, 0.25, 0.1 + 0.2, 0.5, 0.9, 1.7, 5.0, 63.5, 5e-324];
        let mut map = Map::new(size, size * self.one_of(&parts)).expect("within the limits");
        let spread = self.one_of(&[6, 20, 60, 2_000, 1_048_000]);
        for _ in 0..self.below(12) {
            let rack = self.rack(spread);
            let occupied = self.below(4) > 0;
            let batch: Vec<(Cell, bool)> = rack.into_iter().map(|cell| (cell, occupied)).collect();
            // one rack too many is refused, and the floor stays as it was
            let _ = map.change_cells(&batch);
        }
        map
    }

    fn rack(&mut self, spread: i64) -> Vec<Cell> {
        let (x, y) = (
            self.below(2 * spread) - spread,
            self.below(2 * spread) - spread,
        );
        let (wide, long) = (1 + self.below(4), 1 + self.below(12));
        let column = |i: i64| (0..long).map(move |j| Cell::new(x + i, y + j));
        (0..wide).flat_map(column).collect()
    }
}
