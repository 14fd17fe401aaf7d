//! Links the proved archive, `libplanreader.a`.

use std::env;
use std::path::PathBuf;

fn main() {
    println!("cargo:rerun-if-env-changed=PLANREADER_LIB_DIR");
    println!("cargo:rerun-if-changed=build.rs");
    let folder = archive_folder();
    println!("cargo:rerun-if-changed={}", folder.join("libplanreader.a").display());
    println!("cargo:rustc-link-search=native={}", folder.display());
    println!("cargo:rustc-link-lib=static=planreader");
}

fn archive_folder() -> PathBuf {
    match env::var_os("PLANREADER_LIB_DIR") {
        Some(folder) => PathBuf::from(folder),
        None => {
            let manifest = env::var_os("CARGO_MANIFEST_DIR").expect("cargo names the manifest's folder");
            PathBuf::from(manifest).join("../../target/staticlib")
        }
    }
}
