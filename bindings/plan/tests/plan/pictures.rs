//! What a picture shows is what the map says.

use crate::common::{examples, Dice};
use plan::{floor::Floor, svg, text};
use runcedau::Map;

fn count(text: &str, part: &str) -> usize {
    text.matches(part).count()
}

fn assert_told(name: &str, map: &Map) {
    let floor = Floor::of(map);
    let (drawn, told) = (svg::plan(&floor), text::plan(&floor));
    let open = map.iter_edges().count();
    let (pairs, points) = (map.pairs(), map.points());
    let blocked = pairs.iter().filter(|pair| pair.blocker.is_some()).count();
    assert_eq!(count(&drawn, "class=\"line open\""), open, "{name}");
    assert_eq!(count(&drawn, "class=\"line dashed\""), blocked, "{name}");
    assert_eq!(count(&drawn, "class=\"line "), pairs.len(), "{name}");
    let taken = points
        .iter()
        .filter(|point| point.blocker.is_some())
        .count();
    let led = if blocked <= 60 { blocked } else { 0 };
    assert_eq!(count(&drawn, "class=\"leader\""), led + taken, "{name}");
    for pair in pairs {
        let ends = format!("{} to {}", pair.lesser, pair.greater);
        if let Some(blocker) = pair.blocker {
            let title = format!("<title>{ends}: blocked by {blocker}</title>");
            assert_eq!(count(&drawn, &title), 1, "{name}: {title}");
            let line = format!("\n{ends} is blocked by {blocker}\n");
            assert_eq!(count(&told, &line), 1, "{name}: {line}");
        }
    }
    for point in points {
        if let Some(blocker) = point.blocker {
            let title = format!("<title>point {}: blocked by {blocker}</title>", point.cell);
            assert_eq!(count(&drawn, &title), 1, "{name}: {title}");
        }
    }
    assert!(drawn.len() < 2_000_000, "{name}: {} bytes", drawn.len());
    assert!(!drawn.contains("NaN") && !drawn.contains("inf"), "{name}");
}

#[test]
fn the_examples_are_told() {
    for (name, map) in examples() {
        assert_told(&name, &map);
    }
}

#[test]
fn random_floors_are_told() {
    let mut dice = Dice(7);
    let (mut ends, mut led, mut crowded) = (0, 0, 0);
    for i in 0..300 {
        let map = dice.floor();
        assert_told(&format!("floor {i}"), &map);
        let floor = Floor::of(&map);
        ends += floor.with_blocked_end().count();
        led += usize::from((13..=60).contains(&floor.blocked().count()));
        crowded += usize::from(floor.blocked().count() > 60);
    }
    assert!(ends > 20, "{ends} pairs with a blocked end");
    assert!(
        led > 20 && crowded > 2,
        "{led} floors with leaders, {crowded} with a crowd"
    );
}
