//! Writes a file of `#[path]` modules that point at the published files where they lie, so that they are compiled unchanged and
//! none of them stands here.
use std::{env, fs, path::PathBuf};

const FILES: [&str; 12] = ["chan", "dat", "dev", "elf", "error", "exec", "fake", "mem", "pagealloc", "segment", "str", "uaccess"];

fn main() {
    println!("cargo:rerun-if-env-changed=ORACLE_SRC");
    let dir = env::var("ORACLE_SRC").expect("ORACLE_SRC is not set: build with tests/oracle/build or bench/run");
    let mut mods = String::new();
    for m in FILES {
        let p = fs::canonicalize(PathBuf::from(&dir).join(format!("{m}.rs"))).expect(m);
        println!("cargo:rerun-if-changed={}", p.display());
        mods += &format!("#[allow(dead_code, unused)]\n#[path = {p:?}]\npub mod {m};\n");
    }
    fs::write(PathBuf::from(env::var("OUT_DIR").unwrap()).join("mods.rs"), mods).unwrap();
}
