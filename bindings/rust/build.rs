//! Links the proved library: libgatewren.a in the folder GATEWREN_LIB, else where `tools/build gatewren` writes it.

use std::path::{Path, PathBuf};
use std::process::exit;

fn main() {
    println!("cargo:rerun-if-env-changed=GATEWREN_LIB");
    let written = Path::new(env!("CARGO_MANIFEST_DIR")).join("../../target/staticlib");
    let folder = std::env::var_os("GATEWREN_LIB").map_or(written, PathBuf::from);
    let archive = folder.join("libgatewren.a");
    println!("cargo:rerun-if-changed={}", archive.display());
    if !archive.is_file() {
        eprintln!("there is no {}", archive.display());
        eprintln!("make it by `tools/build gatewren` at the root of Gatewren, or name another folder in GATEWREN_LIB");
        exit(1);
    }
    println!("cargo:rustc-link-search=native={}", folder.display());
    println!("cargo:rustc-link-lib=static=gatewren");
}
