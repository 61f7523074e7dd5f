//! Links libport.a: from the folder KESUPAYRO_LIB names, or where `tools/library` writes it in this repository.

use std::{env, path::Path, path::PathBuf};

fn main() {
    println!("cargo:rerun-if-env-changed=KESUPAYRO_LIB");
    let here = PathBuf::from(env::var_os("CARGO_MANIFEST_DIR").unwrap_or_default());
    let folder = env::var_os("KESUPAYRO_LIB").map_or_else(|| here.join("../../target/staticlib"), PathBuf::from);
    let library = folder.join("libport.a");
    assert!(Path::exists(&library), "{} is not there: run `tools/library`, or set KESUPAYRO_LIB to its folder", library.display());
    println!("cargo:rerun-if-changed={}", library.display());
    println!("cargo:rustc-link-search=native={}", folder.display());
    println!("cargo:rustc-link-lib=static=port");
}
