//! Links libmeasured.a from the directory that rust/build.rs has libholthrimi.a from, and read.c as bench/run compiles it.
fn main() {
    let set = |name| std::env::var(name).unwrap_or_else(|_| panic!("{name} is not set: build with bench/run"));
    let (dir, read) = (set("HOLTHRIMI_LIB"), set("BENCH_READ"));
    println!("cargo:rustc-link-search=native={dir}");
    println!("cargo:rustc-link-lib=static=bench_loops");
    println!("cargo:rustc-link-arg-bins={read}");
    println!("cargo:rerun-if-env-changed=HOLTHRIMI_LIB");
    println!("cargo:rerun-if-changed={dir}/libmeasured.a");
    println!("cargo:rerun-if-changed={read}");
}
