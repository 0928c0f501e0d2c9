//! Finds the static library of the proved code, which `make lib` writes to the repository's `build/lib/`.

use std::env;
use std::path::Path;

/// Tells cargo where the library is. Where it is missing, the crate says so itself when it is built;
/// lints need no library.
fn main() {
    let tests = env::var("CARGO_MANIFEST_DIR").expect("cargo names the folder of the package");
    let folder = Path::new(&tests).join("../build/lib");
    let library = folder.join("liblokhazim.a");
    println!("cargo:rerun-if-changed=build.rs");
    println!("cargo:rerun-if-changed={}", library.display());
    println!("cargo:rustc-check-cfg=cfg(library_missing)");
    println!("cargo:rustc-link-search=native={}", folder.display());
    if library.is_file() {
        println!("cargo:rustc-link-lib=static=lokhazim");
    } else {
        println!("cargo:rustc-cfg=library_missing");
    }
}
