//! Links `libhost.a` and `librecords.a`, which `tools/libraries` writes to `target/staticlib/`.
//! The environment variable `HERALINDA_LIB_DIR` names another folder, a relative one seen from
//! this package.

use std::env;
use std::path::{Path, PathBuf};

const FOLDER_VARIABLE: &str = "HERALINDA_LIB_DIR";
const USUAL_FOLDER: &str = "../../target/staticlib";
const LIBRARIES: [&str; 2] = ["host", "records"];

/// Absolute, because the linker may be started in another folder.
fn folder() -> PathBuf {
    let package = env::var_os("CARGO_MANIFEST_DIR").expect("cargo names the package's folder");
    let folder = env::var_os(FOLDER_VARIABLE).unwrap_or_else(|| USUAL_FOLDER.into());
    Path::new(&package).join(folder)
}

fn link(folder: &Path, library: &str) {
    let archive = folder.join(format!("lib{library}.a"));
    if !archive.exists() {
        println!(
            "cargo:warning=there is no {}: `tools/libraries {library}` writes it, or \
             {FOLDER_VARIABLE} names the folder that has it",
            archive.display()
        );
    }
    println!("cargo:rerun-if-changed={}", archive.display());
    println!("cargo:rustc-link-lib=static={library}");
}

fn main() {
    println!("cargo:rerun-if-changed=build.rs");
    println!("cargo:rerun-if-env-changed={FOLDER_VARIABLE}");
    if env::var("CARGO_CFG_TARGET_ARCH").is_ok_and(|target| target == "x86_64") {
        let folder = folder();
        println!("cargo:rustc-link-search=native={}", folder.display());
        LIBRARIES.iter().for_each(|library| link(&folder, library));
    } else {
        println!(
            "cargo:warning=the library is for x86-64 only: for this target the package has no \
             `search` and no `search_records`, and its tests are empty"
        );
    }
}
