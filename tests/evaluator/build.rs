//! Finds the archive `libtrammelbud.a`: its folder is the environment variable
//! TRAMMELBUD_LIB. A relative folder is taken from the root of the repository,
//! two folders above this one, so that `target/staticlib` means the same
//! wherever cargo is started. Without the variable all but the calls into the
//! archive is built.

use std::env;
use std::ffi::OsStr;
use std::path::Path;

fn main() {
    println!("cargo:rerun-if-env-changed=TRAMMELBUD_LIB");
    if let Some(given) = env::var_os("TRAMMELBUD_LIB") {
        link(&given);
    }
}

fn link(given: &OsStr) {
    let package = env::var_os("CARGO_MANIFEST_DIR").expect("cargo names the package's folder");
    let folder = Path::new(&package).join("../..").join(given);
    let archive = folder.join("libtrammelbud.a");
    println!("cargo:rerun-if-changed={}", archive.display());
    println!("cargo:rustc-link-search=native={}", folder.display());
    println!("cargo:rustc-cfg=feature=\"archive\"");
}
