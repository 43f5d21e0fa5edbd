//! Links the archive that `bindings/build` makes of the proved crates.
use std::path::Path;

fn main() {
    let folder = concat!(env!("CARGO_MANIFEST_DIR"), "/../../target/staticlib");
    println!("cargo::rerun-if-changed={folder}/libruncedau.a");
    if !Path::new(folder).join("libruncedau.a").is_file() {
        let words = "target/staticlib/libruncedau.a is not there: run bindings/build first";
        println!("cargo::error={words}");
    }
    println!("cargo::rustc-link-search=native={folder}");
    println!("cargo::rustc-link-lib=static=runcedau");
}
