//! Links the static library that `./build program` writes; SEIPOLKU_LIB names another folder.

use std::env;
use std::path::PathBuf;

fn main() {
    let folder = env::var_os("SEIPOLKU_LIB").map(PathBuf::from).unwrap_or_else(|| {
        PathBuf::from(env::var_os("CARGO_MANIFEST_DIR").expect("cargo sets it")).join("../target/staticlib")
    });
    println!("cargo:rustc-link-search=native={}", folder.display());
    println!("cargo:rustc-link-lib=static=seipolku");
    println!("cargo:rerun-if-env-changed=SEIPOLKU_LIB");
    println!("cargo:rerun-if-changed={}", folder.join("libseipolku.a").display());
}
