//! Stands in for r9's crate `sys`: the constants that dat.rs, dev.rs and
//! chan.rs name, with Plan 9's values.
#![no_std]
pub const ERRMAX: usize = 128;
pub const OREAD: u32 = 0;
pub const OWRITE: u32 = 1;
pub const ORDWR: u32 = 2;
pub const OEXEC: u32 = 3;
pub const OTRUNC: u32 = 16;
pub const OCEXEC: u32 = 32;
pub const ORCLOSE: u32 = 64;
