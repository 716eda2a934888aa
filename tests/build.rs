//! Links `libabi.a`. Without the archive the package still builds, with `no_library` set, and
//! each call of the library then panics: what needs it fails, and the rest can be tested.

use std::env;
use std::path::PathBuf;

fn main() {
    let package = PathBuf::from(env::var_os("CARGO_MANIFEST_DIR").expect("set by cargo"));
    let folder = match env::var_os("BRAWNESK_LIB_DIR") {
        Some(folder) => PathBuf::from(folder),
        None => package.join("../target/staticlib"),
    };
    let archive = folder.join("libabi.a");
    println!("cargo:rustc-check-cfg=cfg(no_library)");
    println!("cargo:rerun-if-env-changed=BRAWNESK_LIB_DIR");
    println!("cargo:rerun-if-changed={}", archive.display());
    if archive.is_file() {
        println!("cargo:rustc-link-search=native={}", folder.display());
        println!("cargo:rustc-link-lib=static=abi");
    } else {
        println!("cargo:rustc-cfg=no_library");
    }
}
