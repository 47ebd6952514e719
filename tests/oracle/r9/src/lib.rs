//! The twelve published files of r9, compiled unchanged, with what they need around them: stand-ins for the parts that aren't
//! published (stubs/), a machine (machine.rs) and its processes (procs.rs). tests/oracle runs scripts over it, bench/ times it.

// What the published files call `core` and `alloc`.
extern crate allocshim as alloc;
extern crate coreshim as core;

/// As r9's lib.rs.
pub type Result<T> = std::result::Result<T, &'static str>;

/// The kernel's console print, under the name `crate::println`: dropped.
macro_rules! kprintln {
    ($($t:tt)*) => { if false { let _ = format!($($t)*); } };
}
pub(crate) mod kprint {
    pub(crate) use kprintln as println;
}
pub(crate) use kprint::println;

#[path = "stubs/bitmapalloc.rs"]
pub mod bitmapalloc;
#[path = "stubs/fdt.rs"]
pub mod fdt;
#[path = "stubs/mcslock.rs"]
pub mod mcslock;
#[path = "stubs/small.rs"]
mod small;
pub use small::{console, devcons, devroot, irq, maths, proc, timer};

pub mod inside;
pub mod machine;
pub mod procs;
#[cfg(feature = "hooks")]
mod user;

// The published files, from where they lie.
include!(concat!(env!("OUT_DIR"), "/mods.rs"));
