//! The example files for tests.

/// The accepted example files.
pub fn examples() -> Vec<(String, Vec<u8>)> {
    let names = [
        "aisle",
        "closed_aisle",
        "example_10",
        "full_floor",
        "one_cell",
        "rack",
    ];
    let folder = concat!(env!("CARGO_MANIFEST_DIR"), "/../../examples");
    let file = |name| std::fs::read(format!("{folder}/{name}.map")).expect("an example");
    names.map(|name| (name.to_string(), file(name))).into()
}
