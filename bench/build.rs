//! Links the archive `libplanreader.a` of target/staticlib, or of the folder that PLANREADER_LIB_DIR names.
use std::env::var;

fn main() {
    let built = || format!("{}/../target/staticlib", var("CARGO_MANIFEST_DIR").expect("cargo names the folder"));
    let folder = var("PLANREADER_LIB_DIR").unwrap_or_else(|_| built());
    println!("cargo:rerun-if-env-changed=PLANREADER_LIB_DIR");
    println!("cargo:rerun-if-changed={folder}/libplanreader.a");
    println!("cargo:rustc-link-search=native={folder}");
    println!("cargo:rustc-link-lib=static=planreader");
}
