//! Finds the proved static library, and says what to do where it is not there.

use std::path::{Path, PathBuf};
use std::{env, process};

const VARIABLE: &str = "JUSTRAVE_LIB_DIR";

fn main() {
    let folder = library_folder();
    let library = folder.join("libjustrave.a");
    println!("cargo:rerun-if-env-changed={VARIABLE}");
    println!("cargo:rerun-if-changed={}", library.display());
    if !library.is_file() {
        explain(&library);
        process::exit(1);
    }
    println!("cargo:rustc-link-search=native={}", folder.display());
    println!("cargo:rustc-link-lib=static=justrave");
}

/// The folder that the variable names, or the one that `make library` writes to.
fn library_folder() -> PathBuf {
    let package = env::var_os("CARGO_MANIFEST_DIR").expect("cargo sets CARGO_MANIFEST_DIR");
    env::var_os(VARIABLE).map_or_else(|| Path::new(&package).join("../target/staticlib"), PathBuf::from)
}

fn explain(library: &Path) {
    eprintln!("the proved library is not there: {}", library.display());
    eprintln!("Build it in the repository's root folder, with the Rattle kit's rt on the PATH: make library");
    eprintln!("If it lies elsewhere, let {VARIABLE} name its folder, as an absolute path.");
}
