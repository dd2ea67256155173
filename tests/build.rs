//! Tells cargo where the unit's C library is: in the folder that PGB_LIB names.

use std::{env, fs};

fn main() {
    println!("cargo:rerun-if-env-changed=PGB_LIB");
    if env::var_os("CARGO_FEATURE_LINKED").is_none() {
        return;
    }
    let folder = env::var("PGB_LIB").expect("PGB_LIB must name the folder with libcapi.a");
    let folder = fs::canonicalize(&folder)
        .unwrap_or_else(|error| panic!("PGB_LIB names {folder}, which cannot be opened: {error}"));
    println!(
        "cargo:rerun-if-changed={}",
        folder.join("libcapi.a").display()
    );
    println!("cargo:rustc-link-search=native={}", folder.display());
    println!("cargo:rustc-link-lib=static=capi");
}
