//! Links the static library that `bindings/c/build` makes: `KEEP_TOML_LIB_DIR` is its folder.
use std::env;
use std::path::PathBuf;

fn main() {
    println!("cargo:rerun-if-env-changed=KEEP_TOML_LIB_DIR");
    let beside = || PathBuf::from(env::var_os("CARGO_MANIFEST_DIR").unwrap()).join("lib");
    let folder = env::var_os("KEEP_TOML_LIB_DIR").map_or_else(beside, PathBuf::from);
    let library = folder.join("libkeep_toml.a");
    assert!(library.exists(), "{} is missing: set KEEP_TOML_LIB_DIR to the folder of libkeep_toml.a", library.display());
    println!("cargo:rerun-if-changed={}", library.display());
    println!("cargo:rustc-link-search=native={}", folder.display());
    println!("cargo:rustc-link-lib=static=keep_toml");
}
