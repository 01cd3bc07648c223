//! Links the store's static library, which `bench/run` has built: `crates/exports/out/libexports.a` of the repository.
fn main() {
    let library = concat!(env!("CARGO_MANIFEST_DIR"), "/../crates/exports/out");
    println!("cargo:rustc-link-search=native={library}");
    println!("cargo:rustc-link-lib=static=exports");
    println!("cargo:rerun-if-changed={library}/libexports.a");
}
