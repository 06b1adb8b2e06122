// Links the proved archive: target/staticlib/libcatalogue.a of this repository, or the folder and name that GORAVESHA_LIB_DIR and GORAVESHA_LIB say.
use std::{env, path::PathBuf};

fn main() {
    let here = PathBuf::from(env::var("CARGO_MANIFEST_DIR").expect("cargo says where the crate stands"));
    let folder = env::var("GORAVESHA_LIB_DIR").map(PathBuf::from).unwrap_or_else(|_| here.join("../../target/staticlib"));
    let name = env::var("GORAVESHA_LIB").unwrap_or_else(|_| "catalogue".into());
    println!("cargo:rustc-link-search=native={}", folder.display());
    println!("cargo:rustc-link-lib=static={name}");
    println!("cargo:rerun-if-changed={}", folder.join(format!("lib{name}.a")).display());
    println!("cargo:rerun-if-env-changed=GORAVESHA_LIB_DIR");
    println!("cargo:rerun-if-env-changed=GORAVESHA_LIB");
}
