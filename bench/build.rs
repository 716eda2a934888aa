//! Looks whether `libabi.a` has the move up. An archive without it still links: `no_move_up` is then set,
//! and the move up isn't measured. The archive itself is linked by the package of the tests.

use std::path::PathBuf;
use std::{env, fs};

const NAME: &[u8] = b"brawnesk_move_up";

fn main() {
    let package = PathBuf::from(env::var_os("CARGO_MANIFEST_DIR").expect("set by cargo"));
    let folder = match env::var_os("BRAWNESK_LIB_DIR") {
        Some(folder) => PathBuf::from(folder),
        None => package.join("../target/staticlib"),
    };
    let archive = folder.join("libabi.a");
    println!("cargo:rustc-check-cfg=cfg(no_move_up)");
    println!("cargo:rerun-if-env-changed=BRAWNESK_LIB_DIR");
    println!("cargo:rerun-if-changed={}", archive.display());
    // An archive begins with the names of all that it has.
    let bytes = fs::read(&archive).unwrap_or_default();
    if !bytes.windows(NAME.len()).any(|part| part == NAME) {
        println!("cargo:rustc-cfg=no_move_up");
    }
}
