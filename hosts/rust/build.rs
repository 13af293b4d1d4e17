//! Finds the two archives: in the folder that QHOBUZIYA_ARCHIVES names, or where hosts/archives puts them.

use std::path::{Path, PathBuf};

fn main() {
    println!("cargo:rerun-if-env-changed=QHOBUZIYA_ARCHIVES");
    let folder = match std::env::var_os("QHOBUZIYA_ARCHIVES") {
        Some(folder) => PathBuf::from(folder),
        None => Path::new(env!("CARGO_MANIFEST_DIR")).join("../../target/staticlib"),
    };
    println!("cargo:rustc-link-search=native={}", folder.display());
    for name in ["qhobuziya_host", "qhobuziya_decode"] {
        link(&folder, name);
    }
}

fn link(folder: &Path, name: &str) {
    let archive = folder.join(format!("lib{name}.a"));
    if !archive.is_file() {
        eprintln!("{} is not there.", archive.display());
        eprintln!("run hosts/archives, or set QHOBUZIYA_ARCHIVES to their folder.");
        std::process::exit(1);
    }
    println!("cargo:rerun-if-changed={}", archive.display());
    println!("cargo:rustc-link-lib=static={name}");
}
