//! One table of all that is measured: each call here beside the Rust, with hash maps as published and with ordered maps where it has maps. The whole is
//! run as often as the argument says, so that the ratio's median and its spread are over runs; within a run each figure is the best of many rounds, and
//! every answer is compared first.
use bench::measure::{Row, Tell};
use bench::{changes, floats, floors, lists, segments, views};
use oracle::program::{note, number, say, Failure, Program};
use std::io::{stdout, IsTerminal};
use std::process::ExitCode;

const PROGRAM: Program<1> = Program {
    name: "bench",
    package: "bench",
    does: "Measures every call beside the Rust, and prints the table of docs/SPEED.md.\n\
           The table comes row by row with the last run; standard error has the rows of those before.",
    arguments: [("RUNS", "how often all is measured, at least 1: a row has the medians")],
    example: ["3"],
};

fn median(mut numbers: Vec<f64>) -> f64 {
    numbers.sort_by(f64::total_cmp);
    numbers[numbers.len() / 2]
}

/// Two digits are enough; thousands are parted.
fn nanoseconds(x: f64) -> String {
    if x < 100.0 {
        return format!("{x:.1}");
    }
    let whole = if x < 10_000.0 {
        x.round()
    } else {
        1000.0 * (x / 1000.0).round()
    } as u64;
    match (whole / 1_000_000, whole / 1000 % 1000, whole % 1000) {
        (0, 0, n) => n.to_string(),
        (0, m, n) => format!("{m},{n:03}"),
        (l, m, n) => format!("{l},{m:03},{n:03}"),
    }
}

/// The same row in every run.
fn line(runs: &[Row]) -> String {
    let of = |time: &dyn Fn(&Row) -> f64| median(runs.iter().map(time).collect());
    let proved = nanoseconds(of(&|row| row.proved));
    let rust = (0..runs[0].rust.len()).map(|i| nanoseconds(of(&|row| row.rust[i])));
    let rust: Vec<String> = rust.collect();
    let ratios: Vec<f64> = runs.iter().map(|row| row.ratio()).collect();
    let (least, most) = ratios
        .iter()
        .fold((f64::INFINITY, 0f64), |(a, b), r| (a.min(*r), b.max(*r)));
    let Row { call, on, .. } = &runs[0];
    format!(
        "| {call} | {on} | {proved} | {} | **{:.2}** ({least:.2} to {most:.2}) |",
        rust.join(" / "),
        median(ratios)
    )
}

const PARTS: [fn(Tell) -> Result<(), Failure>; 6] = [
    floats::rows,
    segments::rows,
    floors::rows,
    changes::rows,
    views::rows,
    lists::rows,
];
/// Of all parts together.
const ROWS: usize = 102;

fn head(runs: u64) -> String {
    format!(
        "| call | on | proved, ns | Rust, ns: once, or hash maps / ordered maps | \
         faster Rust / proved: median of {runs} runs (least to most) |\n|---|---|---|---|---|"
    )
}

/// A row in the runs so far: the table's with the last run, and the last run's own on standard error before that, or where the table goes to a file.
fn told(row: &[Row], number: usize, runs: u64) -> Result<(), Failure> {
    let run = row.len() as u64;
    if run < runs || !stdout().is_terminal() {
        let own = line(&row[row.len() - 1..]);
        note(format!(
            "run {run} of {runs}, row {number} of {ROWS}: {own}"
        ));
    }
    if run < runs {
        return Ok(());
    }
    say(line(row))
}

fn measure([runs]: [String; 1]) -> Result<(), Failure> {
    let runs = number("RUNS", &runs, 1)?;
    let mut table: Vec<Vec<Row>> = Vec::new();
    for run in 1..=runs {
        if run == runs {
            say(head(runs))?;
        }
        let mut done = 0;
        let mut tell = |row| {
            if done == table.len() {
                table.push(Vec::new());
            }
            table[done].push(row);
            done += 1;
            told(&table[done - 1], done, runs)
        };
        PARTS.iter().try_for_each(|rows| rows(&mut tell))?;
    }
    match table.len() {
        ROWS => Ok(()),
        n => Err(Failure::Work(format!("{n} rows, and not {ROWS}"))),
    }
}

fn main() -> ExitCode {
    PROGRAM.run(measure)
}
