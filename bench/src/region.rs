//! Memory for frames: the same kind for both sides, shared pages of 4 KiB that are all present, so that neither has larger pages or
//! faults that the other has not.
use std::ffi::{c_char, c_int, c_long, c_uint, c_void};

unsafe extern "C" {
    fn mmap(at: *mut c_void, n: usize, prot: c_int, flags: c_int, fd: c_int, off: c_long) -> *mut c_void;
    fn memfd_create(name: *const c_char, flags: c_uint) -> c_int;
    fn ftruncate(fd: c_int, n: c_long) -> c_int;
}
const READ_WRITE: c_int = 3;
const SHARED_POPULATED: c_int = 0x8001;
const FIXED: c_int = 0x10;

pub use holthrimi::PAGE;

pub struct Region {
    fd: c_int,
    pub start: *mut u8,
    len: usize,
}

impl Region {
    pub fn new(len: usize) -> Self {
        // SAFETY: new memory at an address of the system's choice.
        unsafe {
            let fd = memfd_create(c"frames".as_ptr(), 0);
            assert!(fd >= 0 && ftruncate(fd, len as c_long) == 0, "bench: no memory");
            let start = mmap(std::ptr::null_mut(), len, READ_WRITE, SHARED_POPULATED, fd, 0);
            assert!(start as isize != -1, "bench: no memory");
            Region { fd, start: start.cast(), len }
        }
    }

    /// Maps the page at `offset` of the region at address `at` too.
    pub fn map_at(&self, at: usize, offset: usize) {
        // SAFETY: callers give addresses that hold user pages only.
        let got = unsafe { mmap(at as *mut c_void, PAGE, READ_WRITE, SHARED_POPULATED | FIXED, self.fd, offset as c_long) };
        assert!(got as usize == at, "bench: can't map a user page at {at}");
    }

    /// All of its bytes. The caller alone uses them while it holds them.
    pub fn bytes(&self) -> &'static mut [u8] {
        // SAFETY: a region is never unmapped.
        unsafe { std::slice::from_raw_parts_mut(self.start, self.len) }
    }
}
