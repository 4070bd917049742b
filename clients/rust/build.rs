//! Links libfoldureem.a from the folder in FOLDUREEM_LIB, or from where `make lib` puts it.
use std::{env, path::Path};

fn main() {
    let here = env::var("CARGO_MANIFEST_DIR").expect("cargo sets it");
    let beside = Path::new(&here).join("../../target").display().to_string();
    let folder = env::var("FOLDUREEM_LIB").unwrap_or(beside);
    println!("cargo:rerun-if-env-changed=FOLDUREEM_LIB");
    println!("cargo:rerun-if-changed={folder}/libfoldureem.a");
    println!("cargo:rustc-link-search=native={folder}");
    println!("cargo:rustc-link-lib=static=foldureem");
}
