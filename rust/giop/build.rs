//! Links libgiop.a from the folder that GIOP_LIB_DIR names, or from where `tools/libgiop` makes it.
use std::env;
use std::path::PathBuf;

fn main() {
    println!("cargo:rerun-if-env-changed=GIOP_LIB_DIR");
    let folder = env::var_os("GIOP_LIB_DIR").map_or_else(
        || PathBuf::from(env!("CARGO_MANIFEST_DIR")).join("../../out/libgiop"),
        PathBuf::from,
    );
    let archive = folder.join("libgiop.a");
    if !archive.exists() {
        panic!(
            "{} isn't there: run tools/libgiop, or name its folder by GIOP_LIB_DIR",
            archive.display()
        );
    }
    println!("cargo:rerun-if-changed={}", archive.display());
    println!("cargo:rustc-link-search=native={}", folder.display());
    println!("cargo:rustc-link-lib=static=giop");
}
