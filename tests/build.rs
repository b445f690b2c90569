//! Links the proved library: `rt lib --cpu x86-64` in crates/tinca writes it.

fn main() {
    let folder = std::env::var("CARGO_MANIFEST_DIR").unwrap();
    println!("cargo:rustc-link-search=native={folder}/../crates/tinca/out");
    println!("cargo:rustc-link-lib=static=tinca");
    println!("cargo:rerun-if-changed={folder}/../crates/tinca/out/libtinca.a");
}
