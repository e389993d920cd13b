//! Tells the program where the proved calls in WebAssembly are, which go into its page: in the file that VPINDEX_WASM
//! names (a full path), or where that is not set or empty, where `sh tools/build.sh vpindex --target wasm32` writes it.

use std::env;
use std::path::{Path, PathBuf};

fn main() {
    println!("cargo::rerun-if-env-changed=VPINDEX_WASM");
    let package = env::var_os("CARGO_MANIFEST_DIR").expect("cargo sets it");
    let named = env::var_os("VPINDEX_WASM").filter(|file| !file.is_empty()).map(PathBuf::from);
    let module = named.unwrap_or_else(|| Path::new(&package).join("../../target/wasm32/vpindex.wasm"));
    println!("cargo::rerun-if-changed={}", module.display());
    if module.is_absolute() && module.is_file() {
        println!("cargo::rustc-env=VPINDEX_WASM={}", module.display());
        return;
    }
    let remedy = "write it by `sh tools/build.sh vpindex --target wasm32`, or name it in VPINDEX_WASM by a full path";
    println!("cargo::error={} is not there: {remedy}", module.display());
}
