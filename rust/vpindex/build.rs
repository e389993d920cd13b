//! Links libvpindex.a, from the folder that VPINDEX_LIB_DIR names (a full path), or where that is not set or empty, from
//! where `sh tools/build.sh vpindex` writes it, with `--target` for the Linux of another processor.

use std::env;
use std::path::{Path, PathBuf};

fn main() {
    println!("cargo::rerun-if-env-changed=VPINDEX_LIB_DIR");
    let named = env::var_os("VPINDEX_LIB_DIR").filter(|folder| !folder.is_empty());
    let folder = named.map_or_else(built_here, PathBuf::from);
    // A build script is not told where cargo was started, so it cannot say what a relative path means.
    if folder.is_relative() {
        println!("cargo::error=VPINDEX_LIB_DIR is `{}`, and it has to be a full path", folder.display());
        return;
    }
    let archive = folder.join("libvpindex.a");
    println!("cargo::rerun-if-changed={}", archive.display());
    if !archive.is_file() {
        let target = target().map_or(String::new(), |name| format!(" --target {name}"));
        let remedy =
            format!("prove and write it by `sh tools/build.sh vpindex{target}`, or name its folder in VPINDEX_LIB_DIR");
        println!("cargo::error={} is not there: {remedy}", archive.display());
        return;
    }
    println!("cargo::rustc-link-search=native={}", folder.display());
    println!("cargo::rustc-link-lib=static=vpindex");
}

fn built_here() -> PathBuf {
    let package = env::var_os("CARGO_MANIFEST_DIR").expect("cargo sets it");
    Path::new(&package).join("../../target").join(target().unwrap_or("staticlib"))
}

/// What tools/build.sh calls the processor that is compiled for, where it is not x86-64.
fn target() -> Option<&'static str> {
    match env::var("CARGO_CFG_TARGET_ARCH").as_deref() {
        Ok("aarch64") => Some("aarch64-linux"),
        Ok("arm") => Some("armv7-linux"),
        Ok("riscv64") => Some("riscv64-linux"),
        _ => None,
    }
}
