//! `core::ptr` with hooks, for programs whose user addresses aren't the host's.
pub use ::core::ptr::*;
use ::core::sync::atomic::{AtomicUsize, Ordering::Relaxed};

static COPY: AtomicUsize = AtomicUsize::new(0);
static READ: AtomicUsize = AtomicUsize::new(0);

/// Sets the hooks: a copy of n bytes from src to dst, and a read of the byte at src.
pub fn hook(copy: fn(*const u8, *mut u8, usize), read: fn(*const u8) -> u8) {
    COPY.store(copy as *const () as usize, Relaxed);
    READ.store(read as *const () as usize, Relaxed);
}

/// # Safety
/// As the hook says, or as the real one while there is none.
pub unsafe fn copy_nonoverlapping<T>(src: *const T, dst: *mut T, n: usize) {
    let copy = COPY.load(Relaxed);
    if copy == 0 {
        unsafe { ::core::ptr::copy_nonoverlapping(src, dst, n) }
    } else {
        let copy: fn(*const u8, *mut u8, usize) = unsafe { ::core::mem::transmute(copy) };
        copy(src.cast(), dst.cast(), n * size_of::<T>())
    }
}

/// # Safety
/// As the hook says, or as the real one while there is none.
pub unsafe fn read<T>(src: *const T) -> T {
    let read = READ.load(Relaxed);
    if read == 0 {
        unsafe { ::core::ptr::read(src) }
    } else {
        const { assert!(size_of::<T>() == 1) };
        let read: fn(*const u8) -> u8 = unsafe { ::core::mem::transmute(read) };
        let b = read(src.cast());
        unsafe { ::core::mem::transmute_copy(&b) }
    }
}
