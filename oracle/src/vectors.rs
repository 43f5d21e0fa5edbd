//! What the lists of vectors share: bit patterns, awkward values, and the two files of a list.
use crate::judged::Changes;
use crate::occupancy::{Cell, CornerStatus, Point};
use crate::program::{note, say, write, Failure, Program};
use crate::question::Question;
use std::collections::BTreeMap;

pub const SIGN: u64 = 1 << 63;
pub const INFINITY: u64 = 2047 << 52;
const NAN: u64 = 0x7ff8_0000_0000_0000;

/// One pattern stands for every NaN.
pub fn pattern(x: f64) -> u64 {
    if x.is_nan() {
        NAN
    } else {
        x.to_bits()
    }
}

/// Values at which a float function goes wrong first, of both signs.
pub fn special() -> Vec<u64> {
    let mut list = vec![
        0,
        1,
        2,
        3,
        (1 << 52) - 1,
        1 << 52,
        (1 << 52) + 1,
        INFINITY - 1,
        INFINITY,
        NAN,
    ];
    for x in [
        0.5, 1.0, 1.5, 2.0, 2.5, 1e-8, 1.4143, 256.0, 65_536.0, 1e308,
    ] {
        list.extend([f64::to_bits(x) - 1, f64::to_bits(x), f64::to_bits(x) + 1]);
    }
    // where the fraction ends, where a column ends, where an i64 ends
    for power in [30, 31, 32, 40, 51, 52, 53, 54, 62, 63, 64] {
        let edge = 2f64.powi(power);
        for x in [edge - 1.0, edge - 0.5, edge, edge + 0.5, edge + 1.0] {
            list.extend([x.to_bits() - 1, x.to_bits(), x.to_bits() + 1]);
        }
    }
    let negative: Vec<u64> = list.iter().map(|b| b ^ SIGN).collect();
    list.extend(negative);
    list
}

/// n values up or down from x.
pub fn stepped(x: f64, n: i64) -> f64 {
    (0..n.abs()).fold(x, |x, _| if n > 0 { x.next_up() } else { x.next_down() })
}

/// The point that is u columns and v rows from the cell's low corner.
pub fn place(cell: Cell, size: f64, u: f64, v: f64) -> Point {
    Point::new(size * (cell.x as f64 + u), size * (cell.y as f64 + v))
}

fn name(blocker: Option<Cell>) -> String {
    blocker.map_or("-".into(), |cell| format!("{},{}", cell.x, cell.y))
}

/// A cell and its status, as it changed or as a list has it.
pub fn status_line(cell: &Cell, status: &CornerStatus) -> String {
    format!("^ {} {} {}", cell.x, cell.y, status.0)
}

/// A point as listings have it.
pub fn point_line(p: &Cell, status: CornerStatus, blocker: Option<Cell>) -> String {
    format!("p {} {} {} {}", p.x, p.y, status.0, name(blocker))
}

/// A pair as listings have it.
pub fn pair_line(p: Cell, q: Cell, blocker: Option<Cell>) -> String {
    format!("e {} {} {} {} {}", p.x, p.y, q.x, q.y, name(blocker))
}

/// A question's letter and operands.
pub fn question_line(question: &Question) -> (char, Vec<u64>) {
    let (letter, numbers) = match *question {
        Question::Point(p) => ('p', vec![p.x, p.y]),
        Question::Square(p, width) => ('s', vec![p.x, p.y, width]),
        Question::Circle(p, radius) => ('c', vec![p.x, p.y, radius]),
        Question::Sweep(p, q, width) => ('w', vec![p.x, p.y, q.x, q.y, width]),
    };
    (letter, numbers.into_iter().map(pattern).collect())
}

/// The refusal, 1 or 0, and the cell that a question found.
pub fn place_numbers(found: Result<Option<Cell>, u64>) -> [i64; 4] {
    match found {
        Err(refusal) => [refusal as i64, 0, 0, 0],
        Ok(None) => [0; 4],
        Ok(Some(cell)) => [0, 1, cell.x, cell.y],
    }
}

/// A program that writes a list of vectors.
pub const fn generator(name: &'static str, does: &'static str, folder: &'static str) -> Program<1> {
    Program {
        name,
        package: "oracle",
        does,
        arguments: [(
            "FOLDER",
            "the folder that `stdin` and `stdout` are written to",
        )],
        example: [folder],
    }
}

/// How many there are of each kind, on standard error.
pub fn tell(counts: &BTreeMap<String, usize>) {
    for (name, count) in counts {
        note(format!("{count:6} {name}"));
    }
}

/// Fails where a kind is missing, or has too few.
pub fn enough(counts: &BTreeMap<String, usize>, needed: &[(&str, usize)]) -> Result<(), Failure> {
    for (name, least) in needed {
        let count = counts.get(*name).copied().unwrap_or(0);
        if count < *least {
            return Err(Failure::Work(format!(
                "{count} {name}, and {least} are needed: nothing is written"
            )));
        }
    }
    Ok(())
}

/// The vectors as a program reads them, and as it is to write them.
#[derive(Default)]
pub struct Vectors {
    asked: String,
    answered: String,
}

fn digits(numbers: &[u64]) -> String {
    numbers.iter().map(|n| format!(" {n:016x}")).collect()
}

fn decimals(numbers: &[i64]) -> String {
    numbers.iter().map(|n| format!(" {n}")).collect()
}

impl Vectors {
    /// A line that patterns answer.
    pub fn push(&mut self, function: char, operands: &[u64], answer: &[u64]) {
        self.answer(function, operands, &digits(answer));
    }

    /// A line that decimals answer.
    pub fn push_counted(&mut self, letter: char, operands: &[u64], answer: &[i64]) {
        self.answer(letter, operands, &decimals(answer));
    }

    fn answer(&mut self, letter: char, operands: &[u64], answer: &str) {
        let line = format!("{letter}{}", digits(operands));
        self.asked += &format!("{line}\n");
        self.answered += &format!("{line}{answer}\n");
    }

    /// A further line of an answer, which the program writes after the line before.
    pub fn answer_more(&mut self, line: &str) {
        self.answered += &format!("{line}\n");
    }

    /// The changes of a batch: each confirmed one, then each cell whose status changed.
    pub fn answer_changes(&mut self, changes: &Changes) {
        for (cell, occupied) in &changes.confirmed {
            self.answer_more(&format!("= {} {} {}", cell.x, cell.y, *occupied as u8));
        }
        for (cell, status) in &changes.corners {
            self.answer_more(&status_line(cell, status));
        }
    }

    /// Another list behind this one.
    pub fn append(&mut self, more: &Vectors) {
        self.asked += &more.asked;
        self.answered += &more.answered;
    }

    /// Tells how many bytes the program reads and writes, and fails where it is too many.
    pub fn within(&self, most: [usize; 2]) -> Result<(), Failure> {
        let bytes = [self.asked.len(), self.answered.len()];
        note(format!(
            "{:6} bytes of stdin, {} of stdout",
            bytes[0], bytes[1]
        ));
        if bytes[0] < most[0] && bytes[1] < most[1] {
            return Ok(());
        }
        let [read, written] = most;
        Err(Failure::Work(format!(
            "less than {read} and {written} bytes are wanted: nothing is written"
        )))
    }

    /// To `stdin` and `stdout` in a folder.
    pub fn write(&self, folder: &str) -> Result<(), Failure> {
        write(format!("{folder}/stdin"), &self.asked)?;
        write(format!("{folder}/stdout"), &self.answered)?;
        let lines = self.asked.lines().count();
        say(format!(
            "{lines} lines in {folder}/stdin, with their answers in {folder}/stdout"
        ))
    }
}
