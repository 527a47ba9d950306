//! Links the static library: from the folder that PLOEGELSTER_ARCHIVE names, else from ../target/staticlib.

use std::path::PathBuf;
use std::{env, process};

fn main() {
    println!("cargo:rerun-if-env-changed=PLOEGELSTER_ARCHIVE");
    let folder = match env::var_os("PLOEGELSTER_ARCHIVE") {
        Some(folder) => PathBuf::from(folder),
        None => PathBuf::from(env::var_os("CARGO_MANIFEST_DIR").expect("cargo names this folder")).join("../target/staticlib"),
    };
    let archive = folder.join("libploegelster.a");
    println!("cargo:rerun-if-changed={}", archive.display());
    if !archive.is_file() {
        eprintln!("no archive {}", archive.display());
        eprintln!("build it with `tools/archive`, or name its folder in PLOEGELSTER_ARCHIVE");
        process::exit(1);
    }
    println!("cargo:rustc-link-search=native={}", folder.display());
    println!("cargo:rustc-link-lib=static=ploegelster");
}
