//! Finds the archive that `./library` made: in `$COVETRIVET_DIR/lib`, or in `out/library` of this checkout.
use std::env;
use std::path::PathBuf;

fn main() {
    let folder = match env::var_os("COVETRIVET_DIR") {
        Some(folder) => PathBuf::from(folder),
        None => PathBuf::from(env::var_os("CARGO_MANIFEST_DIR").unwrap()).join("../../out/library"),
    };
    let lib = folder.join("lib");
    let archive = lib.join("libcovetrivet.a");
    println!("cargo:rerun-if-env-changed=COVETRIVET_DIR");
    println!("cargo:rerun-if-changed={}", archive.display());
    if !archive.exists() {
        panic!("there is no {}: ./library makes it, in its out/library or below a folder that COVETRIVET_DIR names", archive.display());
    }
    println!("cargo:rustc-link-search=native={}", lib.display());
    println!("cargo:rustc-link-lib=static=covetrivet");
}
