//! Under the feature `library`, links `libistrovell.a` from the directory in ISTROVELL_LIB.

use std::env;
use std::path::PathBuf;

fn main() {
    println!("cargo:rerun-if-changed=build.rs");
    println!("cargo:rerun-if-env-changed=ISTROVELL_LIB");
    if env::var_os("CARGO_FEATURE_LIBRARY").is_none() {
        return;
    }
    let directory = library_directory();
    println!("cargo:rerun-if-changed={}", directory.join("libistrovell.a").display());
    println!("cargo:rustc-link-search=native={}", directory.display());
    println!("cargo:rustc-link-lib=static=istrovell");
}

/// ISTROVELL_LIB, or ../crates/istrovell/out; a relative path starts at this package.
fn library_directory() -> PathBuf {
    let package = PathBuf::from(env::var_os("CARGO_MANIFEST_DIR").expect("cargo sets CARGO_MANIFEST_DIR"));
    package.join(env::var_os("ISTROVELL_LIB").unwrap_or_else(|| "../crates/istrovell/out".into()))
}
