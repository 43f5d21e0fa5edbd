//! Lines that lie over each other are drawn side by side, so that a blocked one does not hide an
//! open one.
use runcedau::Cell;
use std::collections::HashMap;

/// A line, and whether it may lie over others of its kind, as open lines may.
pub struct Run {
    pub from: Cell,
    pub to: Cell,
    pub shared: bool,
}

/// For each line its lane: 0 in the middle, then 1, -1, 2, -2 .. beside it.
pub fn lanes(runs: &[Run]) -> Vec<i64> {
    let mut tracks: HashMap<(i64, i64, i64), Vec<usize>> = HashMap::new();
    for (i, run) in runs.iter().enumerate() {
        tracks.entry(track(run)).or_default().push(i);
    }
    let mut lanes = vec![0; runs.len()];
    for mut track in tracks.into_values() {
        track.sort_by_key(|i| (extent(&runs[*i]), *i));
        place(runs, &track, &mut lanes);
    }
    lanes
}

/// The endless line that a run is part of: its direction without common factor, and a number that
/// tells it from those beside it.
fn track(run: &Run) -> (i64, i64, i64) {
    let (dx, dy) = (run.to.x - run.from.x, run.to.y - run.from.y);
    let factor = common(dx.abs(), dy.abs()).max(1);
    let (dx, dy) = (dx / factor, dy / factor);
    (dx, dy, dx * run.from.y - dy * run.from.x)
}

fn common(a: i64, b: i64) -> i64 {
    if b == 0 {
        a
    } else {
        common(b, a % b)
    }
}

/// From where to where along the track.
fn extent(run: &Run) -> (i64, i64) {
    if run.from.x == run.to.x {
        (run.from.y, run.to.y)
    } else {
        (run.from.x, run.to.x)
    }
}

/// Gives each line that may not be hidden the first lane that is free along its extent.
fn place(runs: &[Run], track: &[usize], lanes: &mut [i64]) {
    let overlap = |a: (i64, i64), b: (i64, i64)| a.0 < b.1 && b.0 < a.1;
    let shared = track.iter().filter(|i| runs[**i].shared);
    let mut taken: Vec<(usize, (i64, i64))> = shared.map(|i| (0, extent(&runs[*i]))).collect();
    for i in track.iter().filter(|i| !runs[**i].shared) {
        let mine = extent(&runs[*i]);
        let free = |lane: &usize| {
            !taken
                .iter()
                .any(|(other, run)| other == lane && overlap(*run, mine))
        };
        let lane = (0..).find(free).unwrap_or(0);
        taken.push((lane, mine));
        let side = if lane % 2 == 1 { 1 } else { -1 };
        lanes[*i] = side * lane.div_ceil(2) as i64;
    }
}

#[cfg(test)]
mod tests {
    use super::*;

    fn run(from: (i64, i64), to: (i64, i64), shared: bool) -> Run {
        let (from, to) = (Cell::new(from.0, from.1), Cell::new(to.0, to.1));
        Run { from, to, shared }
    }

    #[test]
    fn a_blocked_line_lies_beside_an_open_one() {
        let runs = [
            run((0, 0), (4, 0), true),
            run((4, 0), (9, 0), false),
            run((0, 0), (9, 0), false),
            run((0, 1), (9, 1), false),
        ];
        assert_eq!(lanes(&runs), [0, 0, 1, 0]);
    }

    #[test]
    fn slanted_lines_meet_only_on_one_track() {
        let runs = [
            run((0, 0), (4, 2), false),
            run((2, 1), (8, 4), false),
            run((2, 0), (6, 2), false),
            run((4, 2), (8, 4), false),
        ];
        assert_eq!(lanes(&runs), [0, 1, 0, 0]);
    }
}
