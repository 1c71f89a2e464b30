//! Links the archives of the proved crates `exports` and `step_exports`.
use std::path::Path;

fn main() {
    let here = std::env::var("CARGO_MANIFEST_DIR").expect("cargo names the folder");
    let archives = Path::new(&here).join("../../target/staticlib");
    println!("cargo:rustc-link-search=native={}", archives.display());
    for name in ["exports", "step_exports"] {
        println!("cargo:rerun-if-changed={}", archives.join(format!("lib{name}.a")).display());
        println!("cargo:rustc-link-lib=static={name}");
    }
}
