//! Links the archive that `bench/build` makes of crate `grid_c`: a floor's calls stand outside of the border.
fn main() {
    let folder = concat!(env!("CARGO_MANIFEST_DIR"), "/../target/staticlib");
    if !std::path::Path::new(folder).join("libgrid_c.a").exists() {
        println!("cargo:warning=target/staticlib/libgrid_c.a is not there: bench/build makes it");
    }
    println!("cargo:rustc-link-search=native={folder}");
    println!("cargo:rustc-link-lib=static=grid_c");
    println!("cargo:rerun-if-changed={folder}/libgrid_c.a");
}
