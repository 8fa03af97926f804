//! Where libnavbridge is: NAVBRIDGE_LIB_DIR, what `make -C bindings/c` made, or what is installed.

use std::path::PathBuf;

fn main() {
    println!("cargo:rerun-if-env-changed=NAVBRIDGE_LIB_DIR");
    let made = PathBuf::from(env!("CARGO_MANIFEST_DIR")).join("../c/out");
    let named = std::env::var_os("NAVBRIDGE_LIB_DIR").map(PathBuf::from);
    match named.or_else(|| made.join("libnavbridge.a").exists().then_some(made)) {
        Some(place) => {
            println!("cargo:rustc-link-search=native={}", place.display());
            println!("cargo:rustc-link-lib=static=navbridge");
        }
        None => println!("cargo:rustc-link-lib=dylib=navbridge"),
    }
}
