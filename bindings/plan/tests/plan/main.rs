//! The tests of `plan` over its modules; bindings/test_plan tries the program.
mod common;
mod differences;
mod drawings;
mod files;
mod pictures;
mod round_trip;
