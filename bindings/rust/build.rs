//! Links the library and its data object: from the folder that REDISPLAY_LIB names, else from `release` of the repository.
use std::env;
use std::path::PathBuf;

fn main() {
    println!("cargo:rerun-if-env-changed=REDISPLAY_LIB");
    let folder = match env::var_os("REDISPLAY_LIB") {
        Some(named) => PathBuf::from(named),
        None => PathBuf::from(env::var_os("CARGO_MANIFEST_DIR").expect("cargo names the crate's folder")).join("../../release"),
    };
    println!("cargo:rerun-if-changed={}", folder.join("libredisplay.a").display());
    println!("cargo:rustc-link-search=native={}", folder.display());
    println!("cargo:rustc-link-lib=static=redisplay_unicode");
    println!("cargo:rustc-link-lib=static=redisplay");
}
