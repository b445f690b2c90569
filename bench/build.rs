//! Links the proved library (`rt lib --cpu x86-64` in crates/tinca writes it) and, where their headers are installed, LMDB and libpmemobj.

use std::process::Command;

fn found(header: &str) -> bool {
    let words = ["-fsyntax-only", "-include", header, "-x", "c", "/dev/null"];
    Command::new("gcc").args(words).output().is_ok_and(|output| output.status.success())
}

fn run(program: &str, words: &[&str]) {
    assert!(Command::new(program).args(words).status().unwrap().success(), "{program} {words:?}");
}

/// Compiles `c/name.c`, links it and the library, and sets `cfg(name)`.
fn store(folder: &str, name: &str, header: &str) {
    let source = format!("{folder}/c/{name}.c");
    println!("cargo:rustc-check-cfg=cfg({name})");
    println!("cargo:rerun-if-changed={source}");
    println!("cargo:rerun-if-changed=/usr/include/{header}");
    if !found(header) {
        return;
    }
    let out = std::env::var("OUT_DIR").unwrap();
    let (object, archive) = (format!("{out}/{name}.o"), format!("{out}/libbench_{name}.a"));
    run("gcc", &["-O3", "-Wall", "-Wextra", "-fPIC", "-c", &source, "-o", &object]);
    run("ar", &["rcs", &archive, &object]);
    println!("cargo:rustc-link-search=native={out}");
    println!("cargo:rustc-link-lib=static=bench_{name}");
    println!("cargo:rustc-link-lib=dylib={name}");
    println!("cargo:rustc-cfg={name}");
}

fn main() {
    let folder = std::env::var("CARGO_MANIFEST_DIR").unwrap();
    println!("cargo:rustc-link-search=native={folder}/../crates/tinca/out");
    println!("cargo:rustc-link-lib=static=tinca");
    println!("cargo:rerun-if-changed={folder}/../crates/tinca/out/libtinca.a");
    println!("cargo:rerun-if-changed=build.rs");
    store(&folder, "lmdb", "lmdb.h");
    store(&folder, "pmemobj", "libpmemobj.h");
}
