// Links libholthrimi.a, which `tools/build holthrimi` writes, from $HOLTHRIMI_LIB, or else from target/staticlib of the repository.

use std::env;
use std::path::PathBuf;

fn main() {
    let beside = PathBuf::from(env::var("CARGO_MANIFEST_DIR").unwrap()).join("../target/staticlib");
    let dir = env::var("HOLTHRIMI_LIB").map(PathBuf::from).unwrap_or(beside);
    if !dir.join("libholthrimi.a").is_file() {
        println!("cargo:warning=no libholthrimi.a in {}: `tools/build holthrimi` writes it to target/staticlib", dir.display());
    }
    println!("cargo:rustc-link-search=native={}", dir.display());
    println!("cargo:rustc-link-lib=static=holthrimi");
    println!("cargo:rerun-if-env-changed=HOLTHRIMI_LIB");
    println!("cargo:rerun-if-changed={}", dir.join("libholthrimi.a").display());
}
