//! Links the library: `libbrawnesk.a`, as it is installed, or `libabi.a`, from the folder that `BRAWNESK_LIB_DIR`
//! names, and otherwise `libabi.a` from where `make` puts it.

use std::env;
use std::path::PathBuf;

fn main() {
    let package = PathBuf::from(env::var_os("CARGO_MANIFEST_DIR").expect("set by cargo"));
    let folder = match env::var_os("BRAWNESK_LIB_DIR") {
        Some(folder) => PathBuf::from(folder),
        None => package.join("../../target/staticlib"),
    };
    println!("cargo:rerun-if-env-changed=BRAWNESK_LIB_DIR");
    let archives = ["brawnesk", "abi"].map(|name| (name, folder.join(format!("lib{name}.a"))));
    let Some((name, archive)) = archives.iter().find(|(_, archive)| archive.exists()) else {
        let folder = folder.display();
        panic!("{folder} has no libbrawnesk.a and no libabi.a: build it (make library), or set BRAWNESK_LIB_DIR");
    };
    println!("cargo:rerun-if-changed={}", archive.display());
    let archive = archive.canonicalize().expect("it exists");
    let folder = archive.parent().expect("a file is in a folder");
    println!("cargo:rustc-link-search=native={}", folder.display());
    println!("cargo:rustc-link-lib=static={name}");
}
