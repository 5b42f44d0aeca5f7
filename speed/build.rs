//! Links the proved reader where the feature `ours` asks for it. The library is
//! looked for in NISGROVE_LIB, or else where `measure` puts it.

use std::env;
use std::path::{Path, PathBuf};

fn main() {
    println!("cargo:rerun-if-changed=build.rs");
    println!("cargo:rerun-if-env-changed=NISGROVE_LIB");
    if env::var_os("CARGO_FEATURE_OURS").is_none() {
        return;
    }
    let manifest = env::var_os("CARGO_MANIFEST_DIR").expect("cargo names the manifest's folder");
    let folder = match env::var_os("NISGROVE_LIB") {
        Some(folder) => PathBuf::from(folder),
        None => Path::new(&manifest).join("../target/staticlib"),
    };
    let library = folder.join("libexported.a");
    println!("cargo:rerun-if-changed={}", library.display());
    println!("cargo:rustc-link-search=native={}", folder.display());
    println!("cargo:rustc-link-lib=static=exported");
}
