//! Links the proved static library, which `speed/run` has built into the repository's target/staticlib.

fn main() {
    let root = std::env::var("CARGO_MANIFEST_DIR").expect("cargo sets it");
    println!("cargo:rustc-link-search=native={root}/../target/staticlib");
    println!("cargo:rustc-link-lib=static=yard");
    println!("cargo:rerun-if-changed={root}/../target/staticlib/libyard.a");
}
