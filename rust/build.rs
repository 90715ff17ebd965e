//! Finds the archive of the proved library, `libcapi.a`: in the folder that `ROSENDUCH_LIB` names, or else in `../target/staticlib`, where
//! `tools/build capi` puts it.

use std::env;
use std::path::PathBuf;

fn main() {
    let here = env::var_os("CARGO_MANIFEST_DIR").map(PathBuf::from).unwrap_or_default();
    let folder = match env::var_os("ROSENDUCH_LIB") {
        Some(named) => PathBuf::from(named),
        None => here.join("..").join("target").join("staticlib"),
    };
    println!("cargo:rerun-if-env-changed=ROSENDUCH_LIB");
    println!("cargo:rerun-if-changed={}", folder.join("libcapi.a").display());
    println!("cargo:rustc-link-search=native={}", folder.display());
    println!("cargo:rustc-link-lib=static=capi");
}
