//! What the published files keep to themselves or to their crate, open to the programs over this one.
use crate::dat::{Access, MMU, ProcArch, UserRegs};
use crate::mem::VirtRange;
use crate::{error, exec, segment, str, uaccess};

/// exec.rs's private functions; see the crate allocshim.
pub struct Exec;

pub fn sysexec<A: ProcArch>(name: String, argv: usize) -> Result<UserRegs, error::Error> {
    exec::sysexec::<A>(name, argv)
}

pub fn ibrk<A: MMU>(bss: &mut Option<VirtRange>, addr: usize) -> crate::Result<u64> {
    segment::ibrk::<A>(bss, addr)
}

pub fn user_range_ok<A: ProcArch>(addr: usize, len: usize, access: Access) -> bool {
    uaccess::user_range_ok::<A>(addr, len, access)
}

pub fn try_copy_str_from_user<A: ProcArch>(dst: &mut [u8], src: usize) -> Option<usize> {
    uaccess::try_copy_str_from_user::<A>(dst, src)
}

pub fn kstrcpy<const N: usize>(dst: &mut [u8; N], src: &str) {
    str::kstrcpy(dst, src)
}
