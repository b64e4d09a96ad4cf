//! Finds the archive that `bin/build-library` makes, and has it linked statically.
//!
//! It is looked for in the folder BANGSORUT_LIB_DIR, an absolute path or one from this crate's folder, and by default in
//! `../dist`.

use std::path::{Path, PathBuf};

const FOLDER: &str = "BANGSORUT_LIB_DIR";

fn main() {
    println!("cargo:rerun-if-env-changed={FOLDER}");
    let target = std::env::var("CARGO_CFG_TARGET_ARCH").unwrap_or_default();
    if target != "x86_64" {
        stop(&format!("the archive has code for x86-64 alone, not for {target}"));
    }
    let here = std::env::var_os("CARGO_MANIFEST_DIR").unwrap_or_default();
    let folder = std::env::var_os(FOLDER).map_or("../dist".into(), PathBuf::from);
    let folder = Path::new(&here).join(folder);
    let archive = folder.join("libbangsorut.a");
    println!("cargo:rerun-if-changed={}", archive.display());
    if !archive.is_file() {
        let archive = archive.display();
        stop(&format!("there is no {archive}: run bin/build-library, or set {FOLDER} to the folder that has it"));
    }
    println!("cargo:rustc-link-search=native={}", folder.display());
    println!("cargo:rustc-link-lib=static=bangsorut");
}

fn stop(why: &str) -> ! {
    eprintln!("{why}");
    std::process::exit(1)
}
