//! Links libfilestore.a: from FILESTORE_LIB_DIR where that is set, else from
//! the repository's target/staticlib, where `host/library` writes it.

use std::env;
use std::path::PathBuf;

fn main() {
    println!("cargo:rerun-if-env-changed=FILESTORE_LIB_DIR");
    let dir = match env::var_os("FILESTORE_LIB_DIR") {
        Some(dir) => PathBuf::from(dir),
        None => {
            let here = env::var_os("CARGO_MANIFEST_DIR").expect("cargo sets it");
            PathBuf::from(here).join("../../target/staticlib")
        }
    };
    let archive = dir.join("libfilestore.a");
    println!("cargo:rerun-if-changed={}", archive.display());
    assert!(
        archive.exists(),
        "no {}: run `host/library` first",
        archive.display()
    );
    println!("cargo:rustc-link-search=native={}", dir.display());
    println!("cargo:rustc-link-lib=static=filestore");
}
