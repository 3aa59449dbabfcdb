//! Finds librdfconv.a: in the folder that RDFCONV_LIB names, or in lib/ beside this file.
use std::{env, path::PathBuf};

fn main() {
    println!("cargo:rerun-if-env-changed=RDFCONV_LIB");
    let beside = PathBuf::from(env::var("CARGO_MANIFEST_DIR").unwrap()).join("lib");
    let folder = env::var("RDFCONV_LIB").map(PathBuf::from).unwrap_or(beside);
    let archive = folder.join("librdfconv.a");
    assert!(archive.is_file(), "{} is not there: set RDFCONV_LIB to the folder of librdfconv.a", archive.display());
    println!("cargo:rerun-if-changed={}", archive.display());
    println!("cargo:rustc-link-search=native={}", folder.display());
    println!("cargo:rustc-link-lib=static=rdfconv");
}
