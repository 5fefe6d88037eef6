//! Links with libcorwaphi.a, which `make` leaves in clients/c/build: in another folder where CORWAPHI_LIB_DIR names it.

use std::env;
use std::path::PathBuf;

fn main() {
    println!("cargo:rerun-if-env-changed=CORWAPHI_LIB_DIR");
    let folder = match env::var_os("CORWAPHI_LIB_DIR") {
        Some(folder) => PathBuf::from(folder),
        None => PathBuf::from(env::var_os("CARGO_MANIFEST_DIR").expect("cargo names the crate's folder")).join("../c/build"),
    };
    println!("cargo:rerun-if-changed={}", folder.join("libcorwaphi.a").display());
    println!("cargo:rustc-link-search=native={}", folder.display());
    println!("cargo:rustc-link-lib=static=corwaphi");
}
