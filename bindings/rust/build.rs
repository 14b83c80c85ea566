//! Links the library's archive: `MGZ_ARCHIVE` (a directory) where it is set, else what `tools/archive` makes.
use std::path::PathBuf;

fn main() {
    println!("cargo:rerun-if-env-changed=MGZ_ARCHIVE");
    let folder = match std::env::var("MGZ_ARCHIVE") {
        Ok(folder) => PathBuf::from(folder),
        Err(_) => PathBuf::from(std::env::var("CARGO_MANIFEST_DIR").unwrap()).join("../../target/native"),
    };
    let archive = folder.join("libc_api.a");
    println!("cargo:rerun-if-changed={}", archive.display());
    assert!(archive.is_file(), "{} is missing: `sh tools/archive` makes it", archive.display());
    println!("cargo:rustc-link-search=native={}", folder.display());
    println!("cargo:rustc-link-lib=static=c_api");
}
