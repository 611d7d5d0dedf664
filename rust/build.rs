//! Links crates/capi/out/libcapi.a of the repository, the proved library.
use std::path::PathBuf;

/// The headers of include/ that src/ffi.rs declares, and of each the line with its version.
const VERSIONS: [(&str, &str); 2] =
    [("lilacpliers.h", "#define LP_VERSION 7"), ("lilacpliers_residual.h", "#define LP_RESIDUAL_VERSION 1")];

fn main() {
    let manifest = std::env::var("CARGO_MANIFEST_DIR").unwrap_or_default();
    let root = PathBuf::from(manifest).join("..");
    let folder = root.join("crates").join("capi").join("out");
    let archive = folder.join("libcapi.a");
    println!("cargo:rerun-if-changed=build.rs");
    println!("cargo:rerun-if-changed={}", archive.display());
    if !archive.exists() {
        stop(format!("{} is missing: run \"rt lib\" in crates/capi first", archive.display()));
    }
    for (name, version) in VERSIONS {
        let header = root.join("include").join(name);
        println!("cargo:rerun-if-changed={}", header.display());
        let declared = std::fs::read_to_string(&header).unwrap_or_default();
        if !declared.lines().any(|line| line.trim_end() == version) {
            stop(format!("{} does not say \"{version}\": bring src/ffi.rs up to it", header.display()));
        }
    }
    println!("cargo:rustc-link-search=native={}", folder.display());
    println!("cargo:rustc-link-lib=static=capi");
}

fn stop(words: String) {
    eprintln!("{words}");
    std::process::exit(1);
}
