//! The proved float steps beside the machine's own: the same million inputs, in one run, each side
//! the best of several rounds. Every answer is compared before anything is timed.
use crate::measure::{best_of, row, Tell};
use crate::{runcedau_floor_to_i64, runcedau_root};
use oracle::program::Failure;
use oracle::Random;
use std::hint::black_box;

const INPUTS: usize = 1_000_000;
const ROUNDS: usize = 30;

/// Finite values not below zero, of 40 exponents around 1.
fn inputs() -> Vec<f64> {
    let mut random = Random::default();
    (0..INPUTS)
        .map(|_| f64::from_bits((1003 + random.next() % 40) << 52 | random.next() >> 12))
        .collect()
}

/// Nanoseconds for one input, output written to memory.
fn time<T: Copy + Default>(xs: &[f64], step: impl Fn(f64) -> T) -> f64 {
    let mut out = vec![T::default(); xs.len()];
    best_of(ROUNDS, xs.len(), || {
        for (o, x) in out.iter_mut().zip(xs) {
            *o = step(*x);
        }
        black_box(&out);
    })
}

pub fn rows(tell: Tell) -> Result<(), Failure> {
    let xs = inputs();
    for &x in &xs {
        assert_eq!(
            runcedau_root(x).to_bits(),
            x.sqrt().to_bits(),
            "root of {x:e}"
        );
        assert_eq!(runcedau_floor_to_i64(x), x.floor() as i64, "floor of {x:e}");
    }
    let (proved, rust) = (time(&xs, runcedau_root), time(&xs, f64::sqrt));
    tell(row("root", "any", proved, &[rust]))?;
    let proved = time(&xs, runcedau_floor_to_i64);
    let rust = time(&xs, |x| x.floor() as i64);
    tell(row("floor", "any", proved, &[rust]))
}
