//! Tells cargo where the proved library stands. Only the feature `library` asks for it.
use std::{env, path::PathBuf};

fn main() {
    println!("cargo:rerun-if-changed=build.rs");
    println!("cargo:rerun-if-env-changed=STRINGHUT_LIBRARY_DIR");
    if env::var_os("CARGO_FEATURE_LIBRARY").is_none() {
        return;
    }
    let package = PathBuf::from(env::var_os("CARGO_MANIFEST_DIR").expect("set by cargo"));
    let place = env::var_os("STRINGHUT_LIBRARY_DIR").map_or(package.join("../target/staticlib"), PathBuf::from);
    println!("cargo:rerun-if-changed={}", place.join("libboard.a").display());
    println!("cargo:rustc-link-search=native={}", place.display());
    println!("cargo:rustc-link-lib=static=board");
}
