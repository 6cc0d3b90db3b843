//! Links the proved engine, a static archive, if it has been built.

use std::env;
use std::path::PathBuf;

fn main() {
    let manifest = env::var("CARGO_MANIFEST_DIR").expect("cargo sets CARGO_MANIFEST_DIR");
    let folder = PathBuf::from(manifest).join("../target/staticlib");
    let archive = folder.join("libcapi.a");
    println!("cargo:rustc-check-cfg=cfg(hallback_archive)");
    println!("cargo:rerun-if-changed=build.rs");
    println!("cargo:rerun-if-changed={}", archive.display());
    if archive.exists() {
        println!("cargo:rustc-cfg=hallback_archive");
        println!("cargo:rustc-link-search=native={}", folder.display());
        println!("cargo:rustc-link-lib=static=capi");
    } else {
        println!(
            "cargo:warning=no archive {}: only the reference is built",
            archive.display()
        );
    }
}
