// Tells the linker where the proved static library lies.
use std::env;
use std::path::{Path, PathBuf};
use std::process::exit;

/// The directory that holds `libunmavreth.a`; unset, it is the one in which `host/archive` puts it.
const LIBRARY_DIRECTORY: &str = "UNMAVRETH_LIBRARY_DIRECTORY";

fn main() {
    println!("cargo:rerun-if-env-changed={LIBRARY_DIRECTORY}");
    println!("cargo:rerun-if-changed=build.rs");
    let directory = directory();
    let library = directory.join("libunmavreth.a");
    println!("cargo:rerun-if-changed={}", library.display());
    if !library.is_file() {
        eprintln!("no {}: run 'host/archive', or set {LIBRARY_DIRECTORY}", library.display());
        exit(1);
    }
    println!("cargo:rustc-link-search=native={}", directory.display());
    println!("cargo:rustc-link-lib=static=unmavreth");
}

fn directory() -> PathBuf {
    match env::var_os(LIBRARY_DIRECTORY) {
        Some(directory) => PathBuf::from(directory),
        None => Path::new(env!("CARGO_MANIFEST_DIR")).join("../../target/staticlib"),
    }
}
