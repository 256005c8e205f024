//! Links libcapi.a: the file that YIRVAGUL_LIB names, or the one that `bindings/archive` writes.
use std::{env, fs, path::Path};

fn main() {
    let own = env::var("CARGO_MANIFEST_DIR").expect("cargo sets it");
    let built = Path::new(&own).join("../../target/staticlib/libcapi.a");
    let library = env::var_os("YIRVAGUL_LIB").map_or(built, Into::into);
    let out = env::var("OUT_DIR").expect("cargo sets it");
    if let Err(e) = fs::copy(&library, Path::new(&out).join("libcapi.a")) {
        panic!(
            "{}: {e}: run `bindings/archive`, or name the archive by YIRVAGUL_LIB",
            library.display()
        );
    }
    println!("cargo:rerun-if-env-changed=YIRVAGUL_LIB");
    println!("cargo:rerun-if-changed={}", library.display());
    println!("cargo:rustc-link-search=native={out}");
    println!("cargo:rustc-link-lib=static=capi");
}
