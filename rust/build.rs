//! Finds libcapi.a, the static library of crate capi, and has it linked.

use std::env;
use std::path::{Path, PathBuf};
use std::process::exit;

const HELP: &str =
    "Make it for x86-64 by `rt lib` in crates/capi, for another machine by `tools/native MACHINE` in the \
                    repository's root. Or set WERANDUMB_LIB to the file libcapi.a or to its folder (a full path, or \
                    one from rust/).";

fn main() {
    println!("cargo:rerun-if-env-changed=WERANDUMB_LIB");
    let places = places();
    let Some(lib) = places.iter().find(|lib| lib.is_file()) else {
        let tried: Vec<String> = places.iter().map(|lib| lib.display().to_string()).collect();
        eprintln!("werandumb: there is no library at {}. {HELP}", tried.join(" or "));
        exit(1);
    };
    let (Some(name), Some(folder)) = (link_name(lib), lib.parent()) else {
        eprintln!("werandumb: {} is not named like a library, libNAME.a. {HELP}", lib.display());
        exit(1);
    };
    println!("cargo:rerun-if-changed={}", lib.display());
    println!("cargo:rustc-link-search=native={}", folder.display());
    println!("cargo:rustc-link-lib=static={name}");
}

/// Where the library may be, best first. `rt lib` writes code for x86-64 alone.
fn places() -> Vec<PathBuf> {
    let root = PathBuf::from(env::var_os("CARGO_MANIFEST_DIR").expect("cargo sets CARGO_MANIFEST_DIR"));
    if let Some(told) = env::var_os("WERANDUMB_LIB") {
        let told = root.join(told);
        return vec![if told.is_dir() { told.join("libcapi.a") } else { told }];
    }
    let native = root.join("../target/native/libcapi.a");
    match env::var("CARGO_CFG_TARGET_ARCH").as_deref() {
        Ok("x86_64") => vec![root.join("../crates/capi/out/libcapi.a"), native],
        _ => vec![native],
    }
}

/// NAME of libNAME.a, as a linker wants it.
fn link_name(lib: &Path) -> Option<&str> {
    lib.file_name()?.to_str()?.strip_prefix("lib")?.strip_suffix(".a")
}
