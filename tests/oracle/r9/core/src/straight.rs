//! `core::ptr` for programs that map a process's pages at their own addresses. Linux maps nothing at the stack's, which end at
//! 2^47: of a copy, an address from there on is moved to where the stack's pages are mapped instead. That is one comparison for
//! each side of a copy. `read`, the string copy's, is the real one.
pub use ::core::ptr::*;
use ::core::sync::atomic::{AtomicUsize, Ordering::Relaxed};

/// Where the user's stack begins, and where its pages are mapped.
pub const STACK: usize = (1 << 47) - 16_384;
pub static MAPPED: AtomicUsize = AtomicUsize::new(0);

#[inline(always)]
fn at(p: usize) -> usize {
    if p < STACK { p } else { p - STACK + MAPPED.load(Relaxed) }
}

/// # Safety
/// As the real one, of the addresses where the pages are mapped.
#[inline(always)]
pub unsafe fn copy_nonoverlapping<T>(src: *const T, dst: *mut T, n: usize) {
    let (src, dst) = (at(src as usize) as *const T, at(dst as usize) as *mut T);
    unsafe { ::core::ptr::copy_nonoverlapping(src, dst, n) }
}
