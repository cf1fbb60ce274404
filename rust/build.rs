//! Tells cargo where `tools/c-library` put `libiddqd.a`: the folder that IDDQD_LIB names, or else the one above this
//! crate.

use std::env;
use std::path::{Path, PathBuf};

fn main() {
    println!("cargo:rerun-if-env-changed=IDDQD_LIB");
    let above = Path::new(&env::var("CARGO_MANIFEST_DIR").unwrap()).join("..");
    let folder = env::var_os("IDDQD_LIB").map_or(above, PathBuf::from);
    if !folder.join("libiddqd.a").exists() {
        panic!("set IDDQD_LIB to a folder that `tools/c-library FOLDER` made: {} has no libiddqd.a", folder.display());
    }
    // Cargo copies the archive into the crate's own library, so a new archive needs a new build.
    println!("cargo:rerun-if-changed={}", folder.join("libiddqd.a").display());
    println!("cargo:rustc-link-search=native={}", folder.display());
    println!("cargo:rustc-link-lib=static=iddqd");
}
