//! Links the proved static library: `target/staticlib/libcapi.a` of the repository, which `./build library` writes, or
//! the archive that the environment variable `FIDROVELJ_LIB` names. With `FIDROVELJ_LIB=none` nothing is linked, which
//! is enough for documentation and for programs that call nothing.

use std::env;
use std::path::{Path, PathBuf};

fn main() {
    println!("cargo:rerun-if-env-changed=FIDROVELJ_LIB");
    let manifest = env::var("CARGO_MANIFEST_DIR").expect("cargo names the manifest's folder");
    let archive = match env::var_os("FIDROVELJ_LIB") {
        Some(none) if none == "none" => return,
        Some(path) => PathBuf::from(path),
        None => Path::new(&manifest).join("../../target/staticlib/libcapi.a"),
    };
    println!("cargo:rerun-if-changed={}", archive.display());
    if !archive.is_file() {
        println!(
            "cargo::error=the proved library {} is missing: run `./build library` at the top of the repository (it \
             needs the Rattle kit, and minutes the first time), or name an archive in FIDROVELJ_LIB",
            archive.display()
        );
        return;
    }
    let folder = archive.parent().expect("an archive stands in a folder");
    let stem = archive.file_stem().and_then(|stem| stem.to_str()).expect("an archive has a name");
    let name = stem.strip_prefix("lib").expect("an archive's name begins with lib");
    println!("cargo:rustc-link-search=native={}", folder.display());
    // Not bundled, so that programs that do not call the library build without it.
    println!("cargo:rustc-link-lib=static:-bundle={name}");
}
