//! Links the static library that `tools/build recovery` writes, and with the feature
//! `before` the one that `tests/before` writes. `lent_before` is set where that one has
//! the runner's calls in lent tables.

use std::path::PathBuf;

fn main() {
    let root = PathBuf::from(std::env::var("CARGO_MANIFEST_DIR").unwrap()).join("../..");
    let folder = root.join("target/staticlib");
    println!("cargo:rustc-link-search=native={}", folder.display());
    println!("cargo:rustc-check-cfg=cfg(lent_before)");
    let mut libraries = vec!["recovery"];
    if std::env::var_os("CARGO_FEATURE_BEFORE").is_some() {
        libraries.push("before");
    }
    for library in libraries {
        println!("cargo:rustc-link-lib=static={library}");
        let file = folder.join(format!("lib{library}.a"));
        println!("cargo:rerun-if-changed={}", file.display());
        let bytes = std::fs::read(file).unwrap_or_default();
        let name = b"before_report_in";
        if bytes.windows(name.len()).any(|part| part == name) {
            println!("cargo:rustc-cfg=lent_before");
        }
    }
}
