//! Writes the vectors that the program `ieee_vectors` replays: `stdin` (function and operands) and
//! `stdout` (the same with the answer of the machine's own function behind it), into the folder
//! that is its one argument. The list is the same on every run.
use oracle::program::{is_folder, Program};
use oracle::vectors::{generator, pattern, special, Vectors, INFINITY, SIGN};
use oracle::{column, Random};
use std::process::ExitCode;

const PROGRAM: Program<1> = generator(
    "ieee_vectors",
    "Writes float operands, and what the machine's own functions answer:\n\
     the list that crate ieee_vectors replays.",
    "crates/ieee_vectors",
);

/// The least value whose root is at least b, by bisection over the patterns from +0 to infinity.
fn threshold(b: f64) -> f64 {
    if b.is_nan() {
        return b;
    }
    let (mut low, mut high) = (0, INFINITY);
    while low < high {
        let middle = low + (high - low) / 2;
        if b <= f64::from_bits(middle).sqrt() {
            high = middle
        } else {
            low = middle + 1
        }
    }
    f64::from_bits(high)
}

fn answer(function: char, x: f64, y: f64) -> u64 {
    match function {
        'r' => pattern(x.sqrt()),
        'i' => (x as i64) as u64,
        'f' => (x.floor() as i64) as u64,
        'c' => (x.ceil() as i64) as u64,
        'd' => column(x.floor() as i64),
        'u' => column(x.ceil() as i64),
        'a' => pattern(x.abs()),
        'l' => pattern(x.min(y)),
        'g' => pattern(x.max(y)),
        't' => pattern(threshold(x)),
        _ => unreachable!(),
    }
}

/// Where a root is a whole number, or as near as can be to the middle between two values.
fn square(random: &mut Random) -> u64 {
    let root = random.next() >> (12 + random.next() % 40);
    let (whole, middle) = (root as u128, 2 * (root as u128) + 1);
    let n = if random.next() % 2 == 0 {
        whole * whole
    } else {
        middle * middle
    };
    let power = (random.next() % 1000) as i32 - 500;
    (n as f64 * 2f64.powi(power)).to_bits() + random.next() % 3 - 1
}

fn roots(random: &mut Random) -> Vec<u64> {
    let mut list = special();
    for exponent in 0..2047 {
        list.push(exponent << 52 | random.next() >> 12); // random bits of every exponent
    }
    list.extend((0..64).map(|k| (k * 32 + random.next() % 32) << 52)); // powers of two
    list.extend((0..52).map(|k| 1u64 << k)); // the subnormal ones
    list.extend((0..100).map(|k| random.next() >> (12 + k % 52))); // subnormals of every length
    list.extend((0..900).map(|_| square(random)));
    list
}

/// Numbers with a fraction of some binary digits, of both signs, and any patterns at all.
fn reals(random: &mut Random, count: usize) -> Vec<u64> {
    let mut list = special();
    for _ in 0..count {
        let whole = (random.next() as i64) >> (random.next() % 63);
        let parts = 2f64.powi((random.next() % 60) as i32);
        list.push((whole as f64 / parts).to_bits());
        list.push(random.next());
    }
    list
}

/// Functions and their operands.
fn asked() -> Vec<(char, u64, u64)> {
    let mut random = Random::default();
    let mut vectors: Vec<(char, u64, u64)> = Vec::new();
    vectors.extend(roots(&mut random).into_iter().map(|x| ('r', x, 0)));
    for (function, count) in [
        ('i', 100),
        ('f', 300),
        ('c', 300),
        ('d', 80),
        ('u', 80),
        ('a', 20),
        ('t', 300),
    ] {
        vectors.extend(
            reals(&mut random, count)
                .into_iter()
                .map(|x| (function, x, 0)),
        );
    }
    // which zero comes of two zeros is open (docs/DIFFERENCES.md), so they are left out
    let zero = |x: u64| x & !SIGN == 0;
    let others = special();
    for function in ['l', 'g'] {
        for x in reals(&mut random, 40) {
            let y = others[random.next() as usize % others.len()];
            if !(zero(x) && zero(y)) {
                vectors.push((function, x, y));
            }
        }
    }
    vectors
}

fn main() -> ExitCode {
    PROGRAM.run(|[folder]| {
        is_folder(&folder)?;
        let mut list = Vectors::default();
        for (function, x, y) in asked() {
            let result = answer(function, f64::from_bits(x), f64::from_bits(y));
            list.push(function, &[x, y], &[result]);
        }
        list.write(&folder)
    })
}
