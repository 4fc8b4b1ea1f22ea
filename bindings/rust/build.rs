//! Links `libexports.a`, which `rt lib` in `crates/exports` writes: from the folder that WUROIKE_LIB names, or `crates/exports/out` of this
//! repository.
use std::env;
use std::path::PathBuf;

fn main() {
    println!("cargo:rerun-if-env-changed=WUROIKE_LIB");
    let beside = || PathBuf::from(env::var("CARGO_MANIFEST_DIR").unwrap()).join("../../crates/exports/out");
    let folder = env::var("WUROIKE_LIB").map(PathBuf::from).unwrap_or_else(|_| beside());
    println!("cargo:rerun-if-changed={}", folder.join("libexports.a").display());
    println!("cargo:rustc-link-search=native={}", folder.display());
}
