//! With the feature `proved`, finds the proved unit, libamx.a: in ../target/staticlib, or in the directory that AMX_LIB_DIR names.
use std::{env, path::PathBuf};

fn main() {
    println!("cargo::rerun-if-env-changed=AMX_LIB_DIR");
    if env::var_os("CARGO_FEATURE_PROVED").is_none() {
        return;
    }
    let directory = match env::var_os("AMX_LIB_DIR") {
        Some(directory) => PathBuf::from(directory),
        None => PathBuf::from(env!("CARGO_MANIFEST_DIR")).join("../target/staticlib"),
    };
    let library = directory.join("libamx.a");
    println!("cargo::rerun-if-changed={}", library.display());
    if library.is_file() {
        println!("cargo::rustc-link-search=native={}", directory.display());
        println!("cargo::rustc-link-lib=static=amx");
        // for the test that links it to a C program
        println!("cargo::rustc-env=AMX_LIBRARY={}", library.display());
    } else {
        println!(
            "cargo::error=there is no {}: run `make lib` in the repository, or set AMX_LIB_DIR to the directory that holds libamx.a, \
             or build without the proved unit, on the second program, by --no-default-features",
            library.display()
        );
    }
}
