//! Links the static libraries that `tools/build export firmware` makes.

use std::env;
use std::path::Path;

fn main() {
    let here = env::var("CARGO_MANIFEST_DIR").expect("cargo says where the crate is");
    let folder = Path::new(&here).join("../../target/staticlib");
    println!("cargo:rustc-link-search=native={}", folder.display());
    for library in ["export", "firmware"] {
        if !folder.join(format!("lib{library}.a")).exists() {
            println!("cargo:warning=run `tools/build {library}` first");
        }
        println!("cargo:rustc-link-lib=static={library}");
        println!("cargo:rerun-if-changed={}", folder.join(format!("lib{library}.a")).display());
    }
}
