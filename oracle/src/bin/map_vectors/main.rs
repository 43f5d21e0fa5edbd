//! Writes the vectors that the program `map_vectors` replays: `stdin` (runs on maps, with tables, questions and lists told in
//! between) and `stdout` (the same with the answers of the Rust's own `Visibility`, ordered maps, behind the refusals of RULES 4),
//! into the folder that is its one argument. The list is the same on every run. Standard error tells how many there are of each
//! kind, of the tables' runs and then of the others; where a kind is missing nothing is written.
mod answers;
mod tables;

use oracle::program::{is_folder, Program};
use oracle::vectors::generator;
use std::process::ExitCode;

const PROGRAM: Program<1> = generator(
    "map_vectors",
    "Writes runs on maps, and what the Rust with ordered maps answers:\n\
     the list that crate map_vectors replays.",
    "crates/map_vectors",
);

fn main() -> ExitCode {
    PROGRAM.run(|[folder]| {
        is_folder(&folder)?;
        let mut list = tables::vectors()?;
        list.append(&answers::vectors()?);
        list.write(&folder)
    })
}
