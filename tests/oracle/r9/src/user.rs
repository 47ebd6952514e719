//! User memory by way of the current address space, through coreshim's hooks: a user address need not be one of the host.
use crate::dat::{Access, Perm};
use crate::machine::{Space, code, cur, frame, m};
use crate::mem::PAGE_SIZE_4K;

pub fn install<S: Space>() {
    core::ptr::hook(copy::<S>, read::<S>);
}

/// Where the user byte at `va` lies in the frames.
fn host<S: Space>(va: usize, write: bool) -> *mut u8 {
    let e = cur::<S>().get(va);
    assert!(e != 0 && (!write || e % 4 == code(Perm::Data)), "r9: access at {va}, entry {e}");
    // SAFETY: a frame's address.
    unsafe { m().frames.add(frame(e).0 as usize + va % PAGE_SIZE_4K) }
}

/// Run `f` over each page's part of [va, va + n): its host address, its place in the range, its length.
fn parts<S: Space>(va: usize, n: usize, write: bool, mut f: impl FnMut(*mut u8, usize, usize)) {
    let mut i = 0;
    while i < n {
        let k = (PAGE_SIZE_4K - (va + i) % PAGE_SIZE_4K).min(n - i);
        f(host::<S>(va + i, write), i, k);
        i += k;
    }
}

/// uaccess.rs copies directly after it has checked the user's side, so the access last checked says which side that is.
fn copy<S: Space>(src: *const u8, dst: *mut u8, n: usize) {
    // SAFETY: uaccess.rs gives a kernel buffer of n bytes for the other side.
    unsafe {
        match m().last {
            Access::Read => parts::<S>(src as usize, n, false, |h, i, k| std::ptr::copy_nonoverlapping(h, dst.add(i), k)),
            Access::Write => parts::<S>(dst as usize, n, true, |h, i, k| std::ptr::copy_nonoverlapping(src.add(i), h, k)),
        }
    }
}

fn read<S: Space>(src: *const u8) -> u8 {
    // SAFETY: host gives a byte of the frames.
    unsafe { *host::<S>(src as usize, false) }
}
