//! Finds the proved static libraries for the feature `linked`.

use std::{env, path::PathBuf};

fn main() {
    println!("cargo:rerun-if-changed=build.rs");
    println!("cargo:rerun-if-env-changed=OSEK_LIB_DIR");
    if env::var_os("CARGO_FEATURE_LINKED").is_none() {
        return;
    }
    let here = PathBuf::from(env::var_os("CARGO_MANIFEST_DIR").expect("cargo sets CARGO_MANIFEST_DIR"));
    let folder = env::var_os("OSEK_LIB_DIR").map_or_else(|| here.join("../build"), PathBuf::from);
    let library = folder.join("libosek.a");
    assert!(
        library.is_file(),
        "{} is missing: build it first by `make lib`, or name its folder in OSEK_LIB_DIR",
        library.display()
    );
    println!("cargo:rerun-if-changed={}", library.display());
    println!("cargo:rustc-env=OSEK_LIBRARY={}", library.display());
    println!("cargo:rustc-link-search=native={}", folder.display());
    println!("cargo:rustc-link-lib=static=osek");
}
