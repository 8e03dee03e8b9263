//! Finds libsarpukten.a: in the folder that SARPUKTEN_LIB names, else where `tests/library` puts it.
use std::env;
use std::path::PathBuf;

fn main() {
    let dir = match env::var_os("SARPUKTEN_LIB") {
        Some(dir) => PathBuf::from(dir),
        None => PathBuf::from(env::var_os("CARGO_MANIFEST_DIR").expect("cargo sets it")).join("../../target/staticlib"),
    };
    let lib = dir.join("libsarpukten.a");
    println!("cargo:rerun-if-env-changed=SARPUKTEN_LIB");
    println!("cargo:rerun-if-changed={}", lib.display());
    // `cargo doc` and `cargo check` do without; what has to be linked does not.
    if !lib.is_file() {
        println!("cargo:warning=no {}: run `tests/library` at the repository's root, or set SARPUKTEN_LIB", lib.display());
    }
    println!("cargo:rustc-link-search=native={}", dir.display());
    println!("cargo:rustc-link-lib=static=sarpukten");
}
