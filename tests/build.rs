//! Links the library under test into the `differential` program alone, so
//! that the converter's own unit tests need no library.

use std::env;
use std::path::PathBuf;

fn main() {
    let own = PathBuf::from(env::var("CARGO_MANIFEST_DIR").expect("cargo sets it"));
    let library = match env::var_os("YIRVAGUL_LIB") {
        Some(path) => PathBuf::from(path),
        None => own.join("../target/staticlib/libcapi.a"),
    };
    println!("cargo::rerun-if-env-changed=YIRVAGUL_LIB");
    println!("cargo::rerun-if-changed={}", library.display());
    println!("cargo::rustc-link-arg-bins={}", library.display());
}
