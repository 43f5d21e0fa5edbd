//! Is `x.powi(2)` one multiplication? Compares it with `x * x`, bit for bit, on values that the
//! compiler cannot see. Prints how many were tried and how many differ.
use oracle::program::{Failure, Program, Progress};
use oracle::Random;
use std::hint::black_box;
use std::process::ExitCode;

const PROGRAM: Program<0> = Program {
    name: "squares",
    package: "oracle",
    does: "Compares x.powi(2) with x * x, bit for bit, on 20,000,000 random values.",
    arguments: [],
    example: [],
};
const COUNT: u64 = 20_000_000;

fn compare() -> Result<(), Failure> {
    let (mut random, mut different) = (Random::default(), 0);
    let mut progress = Progress::new("values", COUNT);
    for _ in 0..COUNT {
        let x = black_box(f64::from_bits(random.next()));
        let (power, product) = (x.powi(2), x * x);
        if power.to_bits() != product.to_bits() && !(power.is_nan() && product.is_nan()) {
            different += 1;
        }
        progress.step();
    }
    progress.end(format!("{COUNT} values, {different} differ"), different)
}

fn main() -> ExitCode {
    PROGRAM.run(|[]| compare())
}
