// Tells the linker where the verified static library lies.
use std::env;

/// Set by the `compare` script to the directory that holds `libunmavreth.a`.
const LIBRARY_DIRECTORY: &str = "UNMAVRETH_LIBRARY_DIRECTORY";

fn main() {
    println!("cargo:rerun-if-env-changed={LIBRARY_DIRECTORY}");
    println!("cargo:rerun-if-changed=build.rs");
    // Unset is an error only in the program that links it: see src/compare/ours.
    if let Ok(directory) = env::var(LIBRARY_DIRECTORY) {
        println!("cargo:rerun-if-changed={directory}/libunmavreth.a");
        println!("cargo:rustc-link-search=native={directory}");
    }
}
