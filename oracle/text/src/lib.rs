//! Brings the crate's text, which is not in this repository, to a build: called by the build scripts of `untouched`
//! and `doc01`. The files are taken as they are given, but for the last line of most: an attribute that stood before the
//! tests, which are not in the text given, so that it has nothing left to stand on. Of `bulirsch/mod.rs`, which names files
//! that are not in the text either, the limits at its end are taken.

use std::{env, fs, path::Path, path::PathBuf};

const WITH_TESTS: [(&str, &str); 7] = [
    ("carlson", "elliprc"),
    ("carlson", "elliprf"),
    ("carlson", "elliprd"),
    ("carlson", "elliprg"),
    ("carlson", "elliprj"),
    ("bulirsch", "cel"),
    ("bulirsch", "constants"),
];
const DANGLING: &str = "#[cfg(not(feature = \"test_force_fail\"))]";
/// The line of `bulirsch/mod.rs` at which its limits begin.
const LIMITS: &str = "/// Maximum number of iterations for [cel]";

/// Writes the files to OUT_DIR.
pub fn prepare() {
    let source = folder();
    let out = PathBuf::from(env::var("OUT_DIR").expect("cargo gives OUT_DIR"));
    println!("cargo:rerun-if-env-changed=ELLIP_SRC");
    for (folder, name) in WITH_TESTS {
        let text = read(&source.join(folder).join(format!("{name}.rs")));
        let kept = text.trim_end().strip_suffix(DANGLING).expect("such a file ends with the dangling attribute");
        write(&out.join(format!("{name}.rs")), kept);
    }
    let text = read(&source.join("bulirsch/mod.rs"));
    let limits = text.find(LIMITS).expect("the limits stand in bulirsch/mod.rs");
    write(&out.join("limits.rs"), &text[limits..]);
    for name in ["crate_util", "polyeval"] {
        write(&out.join(format!("{name}.rs")), &read(&source.join(format!("{name}.rs"))));
    }
}

/// ELLIP_SRC, else the folder that the file `folder` names; both from the repository's root.
fn folder() -> PathBuf {
    let root = Path::new(env!("CARGO_MANIFEST_DIR")).join("../..");
    root.join(env::var_os("ELLIP_SRC").unwrap_or(include_str!("../folder").trim().into()))
}

fn read(path: &Path) -> String {
    println!("cargo:rerun-if-changed={}", path.display());
    fs::read_to_string(path)
        .unwrap_or_else(|e| panic!("{}: {e} (oracle/README.md says where the crate's text is looked for)", path.display()))
}

fn write(path: &Path, text: &str) {
    fs::write(path, text).unwrap_or_else(|e| panic!("{}: {e}", path.display()));
}
