//! Finds libgtd: in the folder that the variable `GTD_LIB_DIR` names, else in `bindings/out` beside this crate, where
//! `bindings/build.sh` puts it, else among the system's libraries. A static library is preferred in the first two.
use std::env;
use std::path::PathBuf;

fn main() {
    println!("cargo:rerun-if-env-changed=GTD_LIB_DIR");
    let beside = || PathBuf::from(env::var_os("CARGO_MANIFEST_DIR").unwrap_or_default()).join("../out");
    let folder = env::var_os("GTD_LIB_DIR").map_or_else(beside, PathBuf::from);
    let archive = folder.join("libgtd.a");
    println!("cargo:rerun-if-changed={}", archive.display());
    println!("cargo:rustc-link-search=native={}", folder.display());
    let kind = if archive.exists() { "static" } else { "dylib" };
    println!("cargo:rustc-link-lib={kind}=gtd");
}
