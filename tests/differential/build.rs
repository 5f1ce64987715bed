//! Links libpgs_c.a: the one in dist/, which `make lib` writes, or in the folder PGS_C_LIB.

use std::env;
use std::path::PathBuf;

fn main() {
    println!("cargo:rerun-if-env-changed=PGS_C_LIB");
    let here = PathBuf::from(env::var("CARGO_MANIFEST_DIR").unwrap());
    let folder = match env::var("PGS_C_LIB") {
        Ok(folder) => PathBuf::from(folder),
        Err(_) => here.join("../../dist"),
    };
    println!("cargo:rerun-if-changed={}", folder.join("libpgs_c.a").display());
    println!("cargo:rustc-link-search=native={}", folder.display());
    println!("cargo:rustc-link-lib=static=pgs_c");
}
