//! Finds the library's archive and links it.

use std::{env, path::PathBuf};

fn main() {
    println!("cargo:rerun-if-env-changed=PLT_LIB");
    let folder = env::var_os("PLT_LIB").map_or_else(default_folder, PathBuf::from);
    let archive = folder.join("libplt.a");
    println!("cargo:rerun-if-changed={}", archive.display());
    if !archive.exists() {
        println!("cargo:warning=no {}: set PLT_LIB", archive.display());
    }
    println!("cargo:rustc-link-search=native={}", folder.display());
    println!("cargo:rustc-link-lib=static=plt");
}

fn default_folder() -> PathBuf {
    let manifest = env::var_os("CARGO_MANIFEST_DIR").expect("cargo sets the manifest's folder");
    PathBuf::from(manifest).join("../../crates/plt/out")
}
