//! Random histories through the bindings and through the Rust with ordered maps, side by side: every answer, and every list after every step.
//! The first difference is printed as a console script that reproduces it, with both answers.
mod asked;
mod histories;
mod rust_side;

use asked::Asked;
use histories::Floor;
use oracle::program::{number, Failure, Program, Progress};
use oracle::Random;
use runcedau::console::Console;
use rust_side::RustSide;
use std::process::ExitCode;
use std::time::Duration;

const PROGRAM: Program<3> = Program {
    name: "compare",
    package: "bindings/compare",
    does: "Puts random histories of a map to the proved library and to the Rust,\n\
           and compares every answer and every list.\n\
           The first difference is printed as a script for the console.",
    arguments: [
        ("HISTORIES", "how many histories, at least 1"),
        ("SEED", "which histories: each number gives others"),
        ("SECONDS", "how long at most, at least 1"),
    ],
    example: ["250000", "7", "900"],
};

/// A script for the console, and both answers to its last line.
type Difference = String;

/// Both sides, and the questions since the last opening.
#[derive(Default)]
struct Sides {
    proved: Console,
    rust: RustSide,
    script: Vec<String>,
    asked: u64,
}

impl Sides {
    fn ask(&mut self, asked: Asked) -> Result<(), Difference> {
        let line = asked.line();
        if let Asked::Open(..) = asked {
            self.script.clear();
        }
        self.script.push(line.clone());
        self.asked += 1;
        let ours = self.proved.answer(line.as_bytes()).unwrap_or_default();
        let ours = String::from_utf8_lossy(&ours);
        let wanted = self.rust.answer(&asked);
        if ours != wanted {
            let script = self.script.join("\n");
            return Err(format!("{script}\n# here: {ours}\n# Rust: {wanted}"));
        }
        Ok(())
    }
}

fn history(sides: &mut Sides, random: &mut Random) -> Result<(), Difference> {
    let floor = Floor::any(random);
    sides.ask(floor.opening(random))?;
    for _ in 0..1 + random.below(9) {
        sides.ask(floor.change(random))?;
        for asked in floor.questions(random) {
            sides.ask(asked)?;
        }
    }
    Ok(())
}

fn compare([count, seed, seconds]: [String; 3]) -> Result<(), Failure> {
    let (count, seed) = (number("HISTORIES", &count, 1)?, number("SEED", &seed, 0)?);
    let limit = Duration::from_secs(number("SECONDS", &seconds, 1)?);
    let (mut sides, mut random) = (Sides::default(), Random::seeded(seed));
    let mut progress = Progress::new("histories", count).within(limit);
    while !progress.is_over() {
        if let Err(difference) = history(&mut sides, &mut random) {
            return progress.end(difference, 1);
        }
        progress.step();
    }
    let (done, asked) = (progress.done(), sides.asked);
    let result = format!("{done} histories from seed {seed}, {asked} questions, 0 differ");
    progress.end(result, 0)
}

fn main() -> ExitCode {
    PROGRAM.run(compare)
}
