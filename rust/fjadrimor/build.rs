//! Finds the proved static library `libembed.a`: in the folder that FJ_LIB_DIR names, or else in this
//! repository's own target folder, where `checks/build embed` puts it.
//!
//! Where it is not there, a warning says what to run. The build goes on: what links nothing, such as
//! `cargo check` and `cargo doc`, needs no archive, and whatever does is refused by the compiler.

use std::env;
use std::path::{Path, PathBuf};

fn main() {
    println!("cargo:rerun-if-env-changed=FJ_LIB_DIR");
    let package = env::var("CARGO_MANIFEST_DIR").expect("cargo names the package's folder");
    let repository = whole(&Path::new(&package).join("../.."));
    let own = repository.join("target/staticlib");
    let folder = whole(&env::var_os("FJ_LIB_DIR").map_or(own, PathBuf::from));
    let archive = folder.join("libembed.a");
    println!("cargo:rerun-if-changed={}", archive.display());
    println!("cargo:rustc-link-search=native={}", folder.display());
    println!("cargo:rustc-link-lib=static=embed");
    if !archive.is_file() {
        let (archive, repository) = (archive.display(), repository.display());
        println!(
            "cargo:warning=there is no {archive}: run `checks/build embed` in {repository}, or \
             name the folder of the archive in FJ_LIB_DIR, by its whole path"
        );
    }
}

/// A folder by its whole path, where it is there.
fn whole(folder: &Path) -> PathBuf {
    folder.canonicalize().unwrap_or_else(|_| folder.to_path_buf())
}
