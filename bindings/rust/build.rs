//! Finds `liblokhazim.a`: in the folder that `LOKHAZIM_LIB_DIR` names, else where `make lib` writes
//! it.

use std::env;
use std::path::PathBuf;

/// The library's file.
const LIBRARY: &str = "liblokhazim.a";

/// Tells cargo where the library is. Where it is missing, the crate says so itself when it is
/// built, and where it was looked for; lints and documentation need no library.
fn main() {
    let folders = folders();
    let found = folders.iter().find(|folder| folder.join(LIBRARY).is_file());
    println!("cargo:rerun-if-env-changed=LOKHAZIM_LIB_DIR");
    for folder in &folders {
        println!("cargo:rerun-if-changed={}", folder.join(LIBRARY).display());
    }
    println!("cargo:rustc-check-cfg=cfg(library_missing)");
    let Some(folder) = found else {
        let looked: Vec<String> = folders.iter().map(|f| f.display().to_string()).collect();
        println!("cargo:rustc-env=LOKHAZIM_LIBRARIES=");
        println!("cargo:rustc-env=LOKHAZIM_LOOKED={}", looked.join(" and "));
        println!("cargo:rustc-cfg=library_missing");
        return;
    };
    println!("cargo:rustc-env=LOKHAZIM_LIBRARIES={}", folder.display());
    println!("cargo:rustc-link-search=native={}", folder.display());
    println!("cargo:rustc-link-lib=static=lokhazim");
}

/// The folders that may have the library; the first that has it is taken. A relative
/// `LOKHAZIM_LIB_DIR` counts from the folder in which cargo was started, and else from this crate's.
fn folders() -> Vec<PathBuf> {
    let this_crate =
        PathBuf::from(env::var_os("CARGO_MANIFEST_DIR").expect("cargo names the crate's folder"));
    let Some(named) = env::var_os("LOKHAZIM_LIB_DIR").map(PathBuf::from) else {
        return vec![this_crate.join("../../build/lib")];
    };
    if named.is_absolute() {
        return vec![named];
    }
    println!("cargo:rerun-if-env-changed=PWD");
    let started = env::var_os("PWD").map(|folder| PathBuf::from(folder).join(&named));
    let beside = this_crate.join(&named);
    started.into_iter().chain([beside]).collect()
}
