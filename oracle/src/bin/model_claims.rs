//! Random runs and questions, with what the Rust (ordered maps) answers, as claims about the definitions of crate
//! `model`: one file of the prover's language, which it accepts only if every answer is computed to be the same.
//! `oracle/model` makes the file and has it checked.
use oracle::occupancy::{Cell, Grid, Point, SparseGrid, Visibility};
use oracle::program::{number, say, Failure, Program};
use oracle::{key, Random};
use std::collections::BTreeMap;
use std::process::ExitCode;

const PROGRAM: Program<3> = Program {
    name: "model_claims",
    package: "oracle",
    does: "Prints what the Rust answers to random runs and questions,\n\
           as claims about the definitions of crate model.\n\
           oracle/model RUNS QUESTIONS SEED has the prover check them.",
    arguments: [
        ("RUNS", "how many runs of batches and radius changes"),
        ("QUESTIONS", "how many questions about cells"),
        ("SEED", "how many random numbers are left out first"),
    ],
    example: ["12", "60", "5"],
};
const HEAD: &str = include_str!("model_claims.txt");

fn blocker(c: &Option<Cell>) -> u64 {
    c.as_ref().map_or(0, key)
}

fn integer(n: i64) -> String {
    if n >= 0 {
        format!("(pos {n})")
    } else {
        format!("(negsuc {})", -1 - n)
    }
}

fn float(x: f64) -> String {
    format!("(bits 0x{:016x})", x.to_bits())
}

fn point(p: Point) -> String {
    format!("(record {{ x = {}; y = {} }})", float(p.x), float(p.y))
}

fn list(items: impl IntoIterator<Item = impl std::fmt::Display>) -> String {
    let mut text = String::from("(");
    for item in items {
        text += &format!("{item} ∷ ");
    }
    text + "[])"
}

fn cell(dice: &mut Random, base: Cell, reach: i64) -> Cell {
    let n = 2 * reach as u64 + 1;
    base.shifted(dice.below(n) as i64 - reach, dice.below(n) as i64 - reach)
}

fn size(dice: &mut Random) -> f64 {
    dice.pick(&[256.0, 2.0, 1.0, 1000.1, 0.1, 3.7, 1.0 / 1024.0, 65536.0])
}

fn base(dice: &mut Random) -> Cell {
    dice.pick(&[
        (0, 0),
        (0, 0),
        (-5, 3),
        (1_048_500, -1_048_500),
        (-1_048_000, 77),
    ])
    .into()
}

fn radius(dice: &mut Random, size: f64) -> f64 {
    size * dice.pick(&[0.0, 0.5, 0.5, 0.78125, 1.0, 1.3, 1.7])
}

/// One operation on the map, and its text.
fn operate(dice: &mut Random, base: Cell, map: &mut Visibility<SparseGrid>) -> String {
    if dice.below(5) == 0 {
        let r = radius(dice, map.grid().cell_size());
        map.change_agent_radius(r);
        return format!("radius {}", float(r));
    }
    let mut batch = BTreeMap::new();
    for _ in 0..1 + dice.below(3) {
        let cell = cell(dice, base, 3);
        batch.insert(cell, dice.below(4) != 0);
    }
    map.change_cells(&batch);
    let entry = |(c, o): (&Cell, &bool)| {
        format!(
            "{} {} {}",
            if *o { "fill" } else { "clear" },
            integer(c.x),
            integer(c.y)
        )
    };
    format!("batch {}", list(batch.iter().map(entry)))
}

/// Cells, points with status and blocker, pairs with blocker, and open pairs.
fn tables(map: &Visibility<SparseGrid>) -> [String; 4] {
    let cells = map.grid().occupied_cells().into_iter().map(key);
    let points = map
        .debug_points()
        .iter()
        .flat_map(|(k, (b, s))| [key(k), s.0 as u64, blocker(b)]);
    let rows = map
        .debug_edges()
        .iter()
        .flat_map(|(p, row)| row.iter().map(move |(q, b)| (p, q, b)));
    let pairs = rows
        .filter(|(p, q, _)| p < q)
        .flat_map(|(p, q, b)| [key(p), key(q), blocker(b)]);
    let mut open: Vec<[u64; 2]> = map
        .iter_edges()
        .map(|(p, q)| [key(p.min(q)), key(p.max(q))])
        .collect();
    open.sort();
    [list(cells), list(points), list(pairs), list(open.concat())]
}

/// A run, and what the map is afterwards. Floors with more than eight points take the prover too long.
fn claim_run(dice: &mut Random, name: &str) -> Option<String> {
    let (size, base) = (size(dice), base(dice));
    let radius = radius(dice, size);
    let mut map = Visibility::new(SparseGrid::new(size), radius);
    let operations: Vec<String> = (0..1 + dice.below(3))
        .map(|_| operate(dice, base, &mut map))
        .collect();
    if map.debug_points().is_empty() || map.debug_points().len() > 8 {
        return None;
    }
    let [cells, points, pairs, open] = tables(&map);
    let from = cell(dice, base, 4);
    let visible = map.calculate_visibility(from).map(|c| key(&c));
    let neighbours = map.neighbors(from).map(|c| key(&c));
    Some(format!(
        "\nunfoldable {name} : Map\n{name} = run {} (opened {} {})\n\n\
         {name}_is : T (is {name} {} {} {})\nunfolding everything is flat_points flat_pairs {name}\n{name}_is = tt\n\n\
         {name}_open : T (same (flat_ends (open_pairs {name})) {})\nunfolding everything flat_ends {name}\n{name}_open = tt\n\n\
         {name}_visible : T (same (visible_from {name} {}) {})\nunfolding everything {name}\n{name}_visible = tt\n\n\
         {name}_neighbours : T (same (neighbours {name} {}) {})\nunfolding everything {name}\n{name}_neighbours = tt",
        list(operations), float(size), float(radius), cells, points, pairs,
        open, key(&from), list(visible), key(&from), list(neighbours),
    ))
}

/// A question of one of the four shapes about a few cells. Half of the numbers are multiples of half a cell.
fn claim_question(dice: &mut Random, name: &str) -> String {
    let (size, base, even) = (size(dice), base(dice), dice.below(2) == 0);
    let mut batch = BTreeMap::new();
    for _ in 0..1 + dice.below(3) {
        batch.insert(cell(dice, base, 2), true);
    }
    let mut grid = SparseGrid::new(size);
    grid.change_cells(&batch);
    let mut number = |at: i64| {
        let steps = at as f64 + 4.0 * dice.unit();
        size * if even {
            (steps * 2.0).round() / 2.0
        } else {
            steps
        }
    };
    let p = Point::new(number(base.x), number(base.y));
    let q = Point::new(number(base.x), number(base.y));
    let w = number(0).abs();
    let (question, found) = match dice.below(4) {
        0 => (format!("point {}", point(p)), grid.is_point_occupied(p)),
        1 => (
            format!("square {} {}", point(p), float(w)),
            grid.is_square_occupied(p, w),
        ),
        2 => (
            format!("circle {} {}", point(p), float(w)),
            grid.is_circle_occupied(p, w),
        ),
        _ => (
            format!("sweep {} {} {}", point(p), point(q), float(w)),
            grid.is_sweep_occupied(p, q, w),
        ),
    };
    format!(
        "\n{name} : T (eqb (cell? (ask {} {} ({question})).cell) {})\nunfolding everything ask\n{name} = tt",
        float(size), list(batch.keys().map(key)), blocker(&found),
    )
}

fn claims([runs, questions, seed]: [String; 3]) -> Result<(), Failure> {
    let (runs, seed) = (number("RUNS", &runs, 0)?, number("SEED", &seed, 0)?);
    let questions = number("QUESTIONS", &questions, 0)?;
    let mut dice = Random::default();
    for _ in 0..seed {
        dice.below(1);
    }
    say(HEAD.trim_end())?;
    let mut made = 0;
    while made < runs {
        if let Some(claim) = claim_run(&mut dice, &format!("run{made}")) {
            say(claim)?;
            made += 1;
        }
    }
    (0..questions).try_for_each(|i| say(claim_question(&mut dice, &format!("question{i}"))))
}

fn main() -> ExitCode {
    PROGRAM.run(claims)
}
