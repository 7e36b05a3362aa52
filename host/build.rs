//! Links the proved library where the feature `library` asks for it; where the feature
//! `old_library` does, the copies of it and of an older one that `scripts/bench` writes.

use std::env;
use std::path::Path;

fn main() {
    println!("cargo:rerun-if-changed=build.rs");
    if env::var_os("CARGO_FEATURE_OLD_LIBRARY").is_some() {
        link("host/target/bench", "nadhirukh", "make bench OLD=ARCHIVE");
        link("host/target/bench", "old", "make bench OLD=ARCHIVE");
    } else if env::var_os("CARGO_FEATURE_LIBRARY").is_some() {
        link("crates/nadhirukh/out", "nadhirukh", "make lib");
    }
}

/// Links a library in a folder of the repository, which a command writes.
fn link(folder: &str, library: &str, command: &str) {
    let package = env::var("CARGO_MANIFEST_DIR").expect("cargo names the package's folder");
    let folder = Path::new(&package).join("..").join(folder);
    let archive = folder.join(format!("lib{}.a", library));
    println!("cargo:rustc-link-search=native={}", folder.display());
    println!("cargo:rustc-link-lib=static={}", library);
    println!("cargo:rerun-if-changed={}", archive.display());
    if !archive.exists() {
        println!(
            "cargo:warning=there is no {}: `{}` writes it",
            archive.display(),
            command
        );
    }
}
