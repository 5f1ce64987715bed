//! Names the published files by their paths: nothing of them is copied.
//! They are looked for in PGS_RUST_SRC, or in shared/docs/src beside the repository.

use std::path::{Path, PathBuf};
use std::{env, fs};

fn main() {
    println!("cargo:rerun-if-env-changed=PGS_RUST_SRC");
    let here = PathBuf::from(env::var("CARGO_MANIFEST_DIR").unwrap());
    let source = match env::var("PGS_RUST_SRC") {
        Ok(folder) => PathBuf::from(folder),
        Err(_) => here.join("../../../../shared/docs/src"),
    };
    let error = found(&source.join("src/error.rs"));
    let pgs = found(&source.join("src/bdmv/pgs.rs"));
    let modules = format!(
        "#[path = {error:?}]\n#[allow(dead_code)]\npub mod error;\n\
         #[path = {pgs:?}]\npub mod pgs;\n\
         /// The text of pgs.rs, to see that every message in it has a number.\n\
         pub const PGS_TEXT: &str = include_str!({pgs:?});\n"
    );
    let out = PathBuf::from(env::var("OUT_DIR").unwrap());
    fs::write(out.join("modules.rs"), modules).unwrap();
}

/// The whole path of a published file; cargo builds again when it changes.
fn found(file: &Path) -> PathBuf {
    let whole = file
        .canonicalize()
        .unwrap_or_else(|e| panic!("the published Rust is not at {}: {e}", file.display()));
    println!("cargo:rerun-if-changed={}", whole.display());
    whole
}
