//! Links libexports.a, from the folder that TASULOGI_LIB names, else from where compare/run makes it.
use std::path::{Path, PathBuf};

fn main() {
    println!("cargo:rerun-if-env-changed=TASULOGI_LIB");
    let folder = std::env::var_os("TASULOGI_LIB").map(PathBuf::from).unwrap_or_else(|| {
        let here = std::env::var_os("CARGO_MANIFEST_DIR").expect("cargo names the folder");
        Path::new(&here).join("../target/staticlib")
    });
    println!("cargo:rerun-if-changed={}", folder.join("libexports.a").display());
    println!("cargo:rustc-link-search=native={}", folder.display());
    println!("cargo:rustc-link-lib=static=exports");
}
