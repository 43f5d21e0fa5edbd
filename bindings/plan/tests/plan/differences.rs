//! What changed between two floors, against their lists.

use crate::common::Dice;
use plan::diff::{Difference, Kind, LineChange};
use plan::{diff_svg, diff_text, floor::Floor};
use runcedau::{Cell, Map};
use std::collections::BTreeSet;

fn difference(a: &Map, b: &Map) -> Difference {
    Difference::of(Floor::of(a), Floor::of(b)).expect("one cell size")
}

fn ends(
    lines: impl Iterator<Item = impl std::ops::Deref<Target = LineChange>>,
) -> Vec<(Cell, Cell)> {
    lines.map(|line| (line.from, line.to)).collect()
}

#[test]
fn lost_and_gained_lines_are_those_of_the_lists() {
    let mut dice = Dice(99);
    let (mut lost, mut other) = (0, 0);
    for _ in 0..200 {
        let a = dice.floor();
        let mut b = a.clone();
        for _ in 0..3 {
            let cell = Cell::new(dice.below(12) - 6, dice.below(12) - 6);
            let _ = b.change_cells(&[(cell, dice.below(2) == 0)]);
        }
        let open = |map: &Map| map.iter_edges().collect::<BTreeSet<_>>();
        let (was, is) = (open(&a), open(&b));
        let told = difference(&a, &b);
        let missing: Vec<(Cell, Cell)> = was.difference(&is).copied().collect();
        assert_eq!(ends(told.of_kind(Kind::Lost)), missing);
        let added: Vec<(Cell, Cell)> = is.difference(&was).copied().collect();
        assert_eq!(ends(told.of_kind(Kind::Gained)), added);
        let back = difference(&b, &a);
        assert_eq!(back.closed, told.freed);
        assert_eq!(
            ends(back.of_kind(Kind::Gained)),
            ends(told.of_kind(Kind::Lost))
        );
        assert_eq!(
            told.nothing(),
            a.listing() == b.listing() && told.closed.is_empty()
        );
        lost += missing.len();
        other += told.of_kind(Kind::Other).count();
    }
    assert!(lost > 200 && other > 50, "{lost} lost, {other} other");
}

fn map_of(cells: &[(i64, i64)]) -> Map {
    let mut map = Map::new(256.0, 200.0).unwrap();
    for cell in cells {
        map.change_cells(&[(Cell::from(*cell), true)]).unwrap();
    }
    map
}

/// RULES 7.3: a pair names a cell that came later, and a past without it names another or none.
#[test]
fn a_word_where_only_blockers_differ() {
    let a = map_of(&[(0, 0), (-3, 2)]);
    let mut b = a.clone();
    b.change_agent_radius(200.0).unwrap();
    let told = diff_text::draw(&difference(&a, &b), false);
    let word = "Only blockers differ: they also depend on the order of past changes.";
    assert!(told.contains(word), "{told}");
    assert!(diff_svg::draw(&difference(&a, &b)).contains(word));
    assert!(!diff_text::draw(&difference(&a, &a), false).contains(word));
}

#[test]
fn what_is_said_of_a_closed_and_a_freed_cell() {
    let a = map_of(&[(0, 0), (6, 0)]);
    let mut b = a.clone();
    let batch = [((3, 2).into(), true), ((6, 0).into(), false)];
    b.change_cells(&batch).unwrap();
    let told = diff_text::draw(&difference(&a, &b), false);
    for line in [
        "\n 2   o  .  .  .  x  +  .  .  .  .  .\n",
        "\n 0   .  .  B  x  .  .  .  o  -  .  .\n",
        "\ncells closed: 1\n  3,2\n",
        "\ncells freed: 1\n  6,0\n",
        "\n  point 2,2 is now blocked by 3,2\n",
        "\n  -2,2 to 2,2 is now blocked by 3,2\n",
        "\n  2,-2 to 5,0 came and is open\n",
        "\n  8,-2 to 8,2 went, it was open\n",
    ] {
        assert!(told.contains(line), "{line}\n{told}");
    }
}

#[test]
fn colours_are_there_only_where_they_are_wanted() {
    let told = difference(&map_of(&[(0, 0)]), &map_of(&[(1, 0)]));
    let (plain, coloured) = (diff_text::draw(&told, false), diff_text::draw(&told, true));
    assert!(!plain.contains('\x1b'));
    assert!(coloured.contains("\x1b[1;31m+\x1b[0m") && coloured.contains("\x1b[1;32m-\x1b[0m"));
    let bare = coloured.replace("\x1b[1;31m", "").replace("\x1b[1;32m", "");
    assert_eq!(bare.replace("\x1b[0m", ""), plain);
}

#[test]
fn two_cell_sizes_are_not_compared() {
    let (a, b) = (Map::new(256.0, 1.0).unwrap(), Map::new(0.5, 1.0).unwrap());
    let refused = Difference::of(Floor::of(&a), Floor::of(&b)).err();
    let why = "a cell of one map is not the same place on the other";
    assert_eq!(
        refused,
        Some(format!("the cell sizes differ, 256 and 0.5: {why}"))
    );
}
