//! Links the proved library, if a feature asks for one of its symbols: libgatewren.a in the folder GATEWREN_LIB, else where
//! `tools/build gatewren` writes it.

use std::{
    env,
    path::{Path, PathBuf},
};

fn main() {
    println!("cargo:rerun-if-changed=Cargo.toml");
    println!("cargo:rerun-if-env-changed=GATEWREN_LIB");
    let wanted = env::vars().any(|(name, _)| name.starts_with("CARGO_FEATURE_LIB_"));
    if !wanted {
        return;
    }
    let root = Path::new(env!("CARGO_MANIFEST_DIR")).parent().expect("oracle/ is in the repository");
    let folder = env::var_os("GATEWREN_LIB").map_or(root.join("target/staticlib"), PathBuf::from);
    println!("cargo:rerun-if-changed={}", folder.join("libgatewren.a").display());
    println!("cargo:rustc-link-search=native={}", folder.display());
    println!("cargo:rustc-link-lib=static=gatewren");
}
