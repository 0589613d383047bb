//! Links the library's archive libcapi.a, in the folder that JEMQOLU_LIB names, or else in ../target.

use std::env;
use std::path::PathBuf;

fn main() {
    let manifest = PathBuf::from(env::var_os("CARGO_MANIFEST_DIR").expect("cargo names the package's folder"));
    let folder = manifest.join(env::var_os("JEMQOLU_LIB").unwrap_or_else(|| "../target".into()));
    println!("cargo:rerun-if-env-changed=JEMQOLU_LIB");
    println!("cargo:rerun-if-changed={}", folder.join("libcapi.a").display());
    println!("cargo:rustc-link-search=native={}", folder.display());
    println!("cargo:rustc-link-lib=static=capi");
}
