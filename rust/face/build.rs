//! Links liblacrumont.a, from the folder LACRUMONT_LIB names or from the checkout's target/staticlib.

use std::env;
use std::path::PathBuf;

fn main() {
    println!("cargo:rerun-if-env-changed=LACRUMONT_LIB");
    let package = PathBuf::from(env::var_os("CARGO_MANIFEST_DIR").expect("cargo names the package's folder"));
    let folder = match env::var_os("LACRUMONT_LIB") {
        Some(named) if !named.is_empty() => package.join(named),
        _ => package.join("../../target/staticlib"),
    };
    let archive = folder.join("liblacrumont.a");
    // Watched even where it is absent, so that the build is tried again once it is there.
    println!("cargo:rerun-if-changed={}", archive.display());
    if env::var("CARGO_CFG_TARGET_ARCH").as_deref() != Ok("x86_64") {
        panic!("liblacrumont.a is for x86-64 only");
    }
    // The linker runs in another folder, so the path must be absolute.
    let folder = match folder.canonicalize() {
        Ok(folder) if archive.is_file() => folder,
        _ => panic!("no liblacrumont.a in {}: tools/archive builds it, or set LACRUMONT_LIB to its folder", folder.display()),
    };
    println!("cargo:rustc-link-search=native={}", folder.display());
    println!("cargo:rustc-link-lib=static=lacrumont");
}
