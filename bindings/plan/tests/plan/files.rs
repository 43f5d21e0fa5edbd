//! Whatever bytes a file has, it is drawn or refused in one line.
use crate::common::{examples, Dice};
use plan::{floor::Floor, svg, text};
use runcedau::Map;

/// A written map with some bytes altered, and at times its end lost.
fn damaged(dice: &mut Dice, map: &Map) -> Vec<u8> {
    let mut file = map.write().expect("a map file");
    for _ in 0..1 + dice.below(3) {
        let place = dice.below(file.len() as i64) as usize;
        file[place] = [0, 1, 2, 255, dice.below(256) as u8][dice.below(5) as usize];
    }
    if dice.below(4) == 0 {
        file.truncate(dice.below(file.len() as i64 + 1) as usize);
    }
    file
}

#[test]
fn damaged_files_are_drawn_or_refused() {
    let (mut dice, mut drawn, mut refused) = (Dice(3), 0, 0);
    let small = |(_, map): &(String, Map)| map.occupied_cells().len() < 100;
    for (name, map) in examples().iter().filter(|example| small(example)) {
        for _ in 0..300 {
            let file = damaged(&mut dice, map);
            match Map::read(&file) {
                Ok(map) => {
                    let floor = Floor::of(&map);
                    assert!(text::plan(&floor).contains("x: "), "{name}");
                    assert!(svg::plan(&floor).ends_with("</svg>\n"), "{name}");
                    drawn += 1;
                }
                Err(refusal) => {
                    let words = refusal.in_words(&file);
                    assert!(
                        !words.is_empty() && !words.contains('\n'),
                        "{name}: {words}"
                    );
                    refused += 1;
                }
            }
        }
    }
    assert!(
        drawn > 50 && refused > 500,
        "{drawn} drawn, {refused} refused"
    );
}
