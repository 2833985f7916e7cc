//! Links the library that `rt lib` writes in crates/capi.
use std::{env, path::PathBuf};

fn main() {
    let here = PathBuf::from(env::var("CARGO_MANIFEST_DIR").unwrap());
    let library = here.join("../crates/capi/out");
    println!("cargo::rerun-if-changed={}", library.join("libcapi.a").display());
    println!("cargo::rustc-link-search=native={}", library.display());
    println!("cargo::rustc-link-lib=static=capi");
}
