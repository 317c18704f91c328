//! Links the library if it is there. Without it everything but the comparison itself still builds and is tested.

use std::env;
use std::path::PathBuf;

/// Names another archive than `../target/staticlib/libropebonnet.a`.
const OVERRIDE: &str = "ROPEBONNET_LIBRARY";

fn main() {
    println!("cargo:rustc-check-cfg=cfg(product)");
    println!("cargo:rerun-if-env-changed={OVERRIDE}");
    let named = env::var_os(OVERRIDE).map(PathBuf::from);
    let package = PathBuf::from(env::var_os("CARGO_MANIFEST_DIR").expect("cargo sets it"));
    let archive = named.clone().unwrap_or(package.join("../target/staticlib/libropebonnet.a"));
    println!("cargo:rerun-if-changed={}", archive.display());
    if !archive.is_file() {
        assert!(named.is_none(), "{OVERRIDE} names no file: {}", archive.display());
        return;
    }
    // The linker is handed the archive itself: its name need not be of the form libNAME.a.
    println!("cargo:rustc-cfg=product");
    println!("cargo:rustc-link-arg={}", archive.display());
}
