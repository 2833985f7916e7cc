//! Lays out the crate's tree in OUT_DIR: three files of DOCS_SRC byte for byte, and the stand-ins.
use std::{
    env, fs,
    path::{Path, PathBuf},
};

const TEXT: [&str; 3] = ["src/lib.rs", "src/map.rs", "src/cache/key_pointers.rs"];
const STAND_INS: [(&str, &str); 4] = [
    ("item.rs", "src/item.rs"),
    ("cache_mod.rs", "src/cache/mod.rs"),
    ("queue.rs", "src/queue.rs"),
    ("README.md", "README.md"), // lib.rs includes it
];

fn copy(from: &Path, to: &Path) {
    println!("cargo::rerun-if-changed={}", from.display());
    let bytes = fs::read(from).unwrap_or_else(|e| panic!("{}: {e}", from.display()));
    fs::create_dir_all(to.parent().unwrap()).unwrap();
    fs::write(to, bytes).unwrap();
}

fn main() {
    println!("cargo::rerun-if-env-changed=DOCS_SRC");
    let docs = env::var("DOCS_SRC").expect("set DOCS_SRC to the directory that has src/map.rs");
    let docs = PathBuf::from(docs);
    let out = PathBuf::from(env::var("OUT_DIR").unwrap());
    for name in TEXT {
        copy(&docs.join(name), &out.join(name));
    }
    for (from, to) in STAND_INS {
        copy(&Path::new("stand-ins").join(from), &out.join(to));
    }
    let root = format!("#[path = {:?}]\n#[allow(unused_attributes, dead_code)]\nmod text;\n", out.join("src/lib.rs"));
    fs::write(out.join("root.rs"), root).unwrap();
}
