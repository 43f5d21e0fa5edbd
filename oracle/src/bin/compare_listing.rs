//! Runs a program on random map files, good ones and damaged ones, and compares what it prints, byte for byte, with the listing of the Rust with ordered maps.
//! The first file that differs is told in hexadecimal digits.
use oracle::listing::{listing, read};
use oracle::map_files::{any_floor, any_map, damaged, File};
use oracle::program::{cannot, number, Failure, Program, Progress};
use oracle::Random;
use std::collections::BTreeMap;
use std::io::Write;
use std::process::{Command, ExitCode, Stdio};

const PROGRAM: Program<3> = Program {
    name: "compare_listing",
    package: "oracle",
    does: "Runs a program on random map files, and compares what it prints with the listings of the Rust.\n\
           The first file that differs is told in hexadecimal digits.",
    arguments: [
        ("PROGRAM", "what lists a map file: crates/listing/out/listing, which `rt run` in crates/listing makes"),
        ("FILES", "how many files, at least 1"),
        ("SEED", "which files: each number gives others"),
    ],
    example: ["crates/listing/out/listing", "150000", "1"],
};

/// What the program prints for a file on its standard input.
fn printed(program: &str, file: &File) -> Result<Vec<u8>, Failure> {
    let mut child = Command::new(program)
        .stdin(Stdio::piped())
        .stdout(Stdio::piped())
        .spawn()
        .map_err(|error| cannot(program, "be run", error))?;
    // it may end before it has read all
    let _ = child.stdin.take().expect("its input").write_all(file);
    let output = child.wait_with_output();
    Ok(output
        .map_err(|error| cannot(program, "be read", error))?
        .stdout)
}

fn any_file(random: &mut Random) -> File {
    let good = match random.below(3) {
        0 => any_floor(random),
        _ => any_map(random),
    };
    (0..random.below(4) / 2).fold(good, |file, _| damaged(random, &file))
}

fn compare([program, count, seed]: [String; 3]) -> Result<(), Failure> {
    let (count, seed) = (number("FILES", &count, 1)?, number("SEED", &seed, 0)?);
    let mut random = Random::seeded(seed);
    let mut kinds: BTreeMap<u64, u64> = BTreeMap::new();
    let mut progress = Progress::new("files", count);
    for n in 0..count {
        let file = any_file(&mut random);
        let refusal = read(&file).err().map_or(0, |(refusal, _)| refusal);
        *kinds.entry(refusal).or_default() += 1;
        if printed(&program, &file)? != listing(&file).as_bytes() {
            let digits: String = file.iter().map(|byte| format!("{byte:02x}")).collect();
            return progress.end(format!("file {n} differs: {digits}"), 1);
        }
        progress.step();
    }
    let result =
        format!("{count} files from seed {seed}, 0 differ; by refusal (0: listed) {kinds:?}");
    progress.end(result, 0)
}

fn main() -> ExitCode {
    PROGRAM.run(compare)
}
