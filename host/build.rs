//! Links the compiled proved library, `libduskstall.a`, where it has been
//! built. Without it this crate and its unit tests still build and run; the
//! comparisons and the benchmark then fail at linking, and never pass idly.

use std::env;
use std::path::Path;

fn main() {
    let package = env::var("CARGO_MANIFEST_DIR").expect("cargo names the package's folder");
    let folder = Path::new(&package).join("../target/staticlib");
    let library = folder.join("libduskstall.a");
    println!("cargo:rerun-if-changed=build.rs");
    println!("cargo:rerun-if-changed={}", library.display());
    if library.exists() {
        println!("cargo:rustc-link-search=native={}", folder.display());
        println!("cargo:rustc-link-lib=static=duskstall");
    }
}
