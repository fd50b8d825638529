//! Links the archive that `tools/build nickelhush` writes. NICKELHUSH_LIB names another folder.
use std::{env, path::PathBuf};

fn main() {
    println!("cargo:rerun-if-env-changed=NICKELHUSH_LIB");
    let here = PathBuf::from(env::var_os("CARGO_MANIFEST_DIR").unwrap());
    let lib = env::var_os("NICKELHUSH_LIB").map_or_else(|| here.join("../../target/staticlib"), PathBuf::from);
    println!("cargo:rerun-if-changed={}", lib.join("libnickelhush.a").display());
    println!("cargo:rustc-link-search=native={}", lib.display());
    println!("cargo:rustc-link-lib=static=nickelhush");
}
