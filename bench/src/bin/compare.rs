//! The proved float steps against the machine's own, on random values of three kinds. Prints the count and how many answers differ.
use bench::*;
use oracle::program::{number, say, Failure, Program, Progress};
use oracle::{column, Random};
use std::process::ExitCode;

const PROGRAM: Program<1> = Program {
    name: "compare",
    package: "bench",
    does:
        "Compares the proved float steps with the machine's own, on random values of three kinds.",
    arguments: [("VALUES", "how many values of each kind, at least 1")],
    example: ["1000000"],
};

/// Bit for bit, any NaN for any NaN.
fn same(a: f64, b: f64) -> bool {
    a.to_bits() == b.to_bits() || a.is_nan() && b.is_nan()
}

/// t is the least value whose root is at least b: its root is, and that of the value before is not.
fn is_threshold(b: f64, t: f64) -> bool {
    if b.is_nan() {
        return t.is_nan();
    }
    b <= t.sqrt() && (t.to_bits() == 0 || !(b <= f64::from_bits(t.to_bits() - 1).sqrt()))
}

fn agree(x: f64, y: f64) -> bool {
    same(runcedau_root(x), x.sqrt())
        && is_threshold(x, runcedau_root_threshold(x))
        && runcedau_cut_to_i64(x) == x as i64
        && runcedau_floor_to_i64(x) == x.floor() as i64
        && runcedau_ceil_to_i64(x) == x.ceil() as i64
        && runcedau_column_of(x) == column(x.floor() as i64)
        && runcedau_column_up(x) == column(x.ceil() as i64)
        && same(runcedau_abs(x), x.abs())
        && (x == 0.0 && y == 0.0
            || same(runcedau_min(x, y), x.min(y)) && same(runcedau_max(x, y), x.max(y)))
}

fn compare([count]: [String; 1]) -> Result<(), Failure> {
    let count = number("VALUES", &count, 1)?;
    let mut progress = Progress::new("values", count.saturating_mul(3));
    let mut random = Random::default();
    let mut next = || random.next();
    let (mut before, mut different) = (1.5, 0);
    for _ in 0..count {
        let any = f64::from_bits(next());
        let fraction = ((next() as i64) >> (next() % 60)) as f64 / (1u64 << (next() % 30)) as f64;
        let root = (next() >> (32 + next() % 30)) as f64;
        for x in [any, fraction, root * root] {
            if !agree(x, before) {
                different += 1;
                progress.clear();
                say(format!("differs at {:016x}, {before:e}", x.to_bits()))?;
            }
            before = x;
            progress.step();
        }
    }
    let values = progress.done();
    progress.end(format!("{values} values, {different} differ"), different)
}

fn main() -> ExitCode {
    PROGRAM.run(compare)
}
