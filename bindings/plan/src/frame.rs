//! Which columns and rows are drawn. Long stretches with nothing in them are cut short.
use runcedau::Cell;

/// So many empty columns in a row are drawn; of more than that only those next to something.
const LONGEST: i64 = 8;
const KEPT: i64 = 2;
/// How wide a cut is drawn, in cells.
const CUT: f64 = 1.0;

/// The columns, or the rows: stretches from first to last, ascending, with a cut between each two.
pub struct Axis {
    pub stretches: Vec<(i64, i64)>,
}

impl Axis {
    /// Around the columns in use; of none, those around 0.
    fn around(used: impl Iterator<Item = i64>) -> Axis {
        let mut used: Vec<i64> = used.collect();
        used.sort_unstable();
        let mut stretches: Vec<(i64, i64)> = Vec::new();
        for next in used {
            match stretches.last_mut() {
                Some(last) if next - last.1 <= LONGEST + 1 => last.1 = next,
                Some(last) => {
                    last.1 += KEPT;
                    stretches.push((next - KEPT, next));
                }
                None => stretches.push((next, next)),
            }
        }
        if stretches.is_empty() {
            stretches.push((-KEPT, KEPT));
        }
        Axis { stretches }
    }

    /// Each column in turn, and nothing for a cut.
    pub fn places(&self) -> impl DoubleEndedIterator<Item = Option<i64>> + '_ {
        let one = |(i, (from, to)): (usize, &(i64, i64))| {
            let cut = (i > 0).then_some(None);
            cut.into_iter().chain((*from..=*to).map(Some))
        };
        self.stretches.iter().enumerate().flat_map(one)
    }

    pub fn longest_label(&self) -> usize {
        let ends = self.stretches.iter().flat_map(|(from, to)| [from, to]);
        ends.map(|end| end.to_string().len()).max().unwrap_or(0)
    }

    /// The whole width in drawn cells.
    pub fn length(&self) -> f64 {
        self.stretches.iter().map(width).sum::<f64>() + self.cuts().len() as f64 * CUT
    }

    /// Where a place on the floor, counted in cells, is drawn: how far from the first border, in
    /// drawn cells.
    pub fn position(&self, place: f64) -> f64 {
        let mut drawn = 0.0;
        let mut before = self.stretches[0].0 as f64;
        for stretch in &self.stretches {
            let (from, to) = (stretch.0 as f64, (stretch.1 + 1) as f64);
            if place < from {
                return drawn - CUT + CUT * (place - before) / (from - before);
            }
            if place <= to {
                return drawn + place - from;
            }
            drawn += width(stretch) + CUT;
            before = to;
        }
        self.length()
    }

    /// Whether a place on the floor is drawn, and not within a cut.
    pub fn holds(&self, place: f64) -> bool {
        let within = |(from, to): &(i64, i64)| place >= *from as f64 && place <= (*to + 1) as f64;
        self.stretches.iter().any(within)
    }

    /// The two borders of each cut, as places on the floor.
    pub fn cuts(&self) -> Vec<(f64, f64)> {
        let sides = self.stretches.iter().zip(&self.stretches[1..]);
        sides.map(|(a, b)| ((a.1 + 1) as f64, b.0 as f64)).collect()
    }

    /// The borders of all columns, as places on the floor.
    pub fn borders(&self) -> impl Iterator<Item = f64> + '_ {
        let of_one = |(from, to): &(i64, i64)| (*from..=*to + 1).map(|border| border as f64);
        self.stretches.iter().flat_map(of_one)
    }

    /// The columns whose labels fit beside each other: the first of each stretch, and those of
    /// round numbers. `room` is what a label needs, in drawn cells.
    pub fn labelled(&self, room: impl Fn(i64) -> f64) -> Vec<i64> {
        let longest = self.places().flatten().map(&room).fold(0.0, f64::max);
        let steps = [1, 2, 5, 10, 20, 50, 100];
        let step = steps.into_iter().find(|step| *step as f64 >= longest);
        let step = step.unwrap_or(200);
        let mut chosen: Vec<i64> = Vec::new();
        let mut next = 0.0;
        for (from, to) in &self.stretches {
            for column in (*from..=*to).filter(|x| x == from || x % step == 0) {
                let place = self.position(column as f64);
                if place >= next {
                    chosen.push(column);
                    next = place + longest;
                }
            }
        }
        chosen
    }
}

fn width(stretch: &(i64, i64)) -> f64 {
    (stretch.1 - stretch.0 + 1) as f64
}

pub struct Frame {
    pub columns: Axis,
    pub rows: Axis,
}

impl Frame {
    pub fn around(drawn: &[Cell]) -> Frame {
        Frame {
            columns: Axis::around(drawn.iter().map(|cell| cell.x)),
            rows: Axis::around(drawn.iter().map(|cell| cell.y)),
        }
    }
}

#[cfg(test)]
mod tests {
    use super::*;

    #[test]
    fn a_long_stretch_with_nothing_in_it_is_cut() {
        let axis = |used: &[i64]| Axis::around(used.iter().copied()).stretches;
        assert_eq!(axis(&[]), [(-2, 2)]);
        assert_eq!(axis(&[9, 0]), [(0, 9)]);
        assert_eq!(axis(&[10, 0]), [(0, 2), (8, 10)]);
        let far = [-1_048_640, 1_048_640];
        assert_eq!(
            axis(&far),
            [(-1_048_640, -1_048_638), (1_048_638, 1_048_640)]
        );
    }

    #[test]
    fn a_cut_is_as_wide_as_a_cell() {
        let axis = Axis::around([0, 100].into_iter());
        let places = [0.0, 2.5, 3.0, 50.5, 98.0, 100.5, 101.0];
        let drawn = [0.0, 2.5, 3.0, 3.5, 4.0, 6.5, 7.0];
        assert_eq!(places.map(|place| axis.position(place)), drawn);
        assert_eq!(axis.length(), 7.0);
        assert_eq!(
            places
                .map(|place| axis.holds(place))
                .iter()
                .filter(|yes| !**yes)
                .count(),
            1
        );
        let columns = [
            Some(0),
            Some(1),
            Some(2),
            None,
            Some(98),
            Some(99),
            Some(100),
        ];
        assert_eq!(axis.places().collect::<Vec<_>>(), columns);
    }

    #[test]
    fn labels_keep_apart() {
        let axis = Axis::around(-3..12);
        assert_eq!(axis.labelled(|_| 0.9).len(), 15);
        assert_eq!(axis.labelled(|_| 2.5), [-3, 0, 5, 10]);
        assert_eq!(axis.labelled(|_| 4.0), [-3, 5, 10]);
    }
}
