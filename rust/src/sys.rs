// The static library's functions, as include/holthrimi.h has them.

use crate::{Flags, Procs, Setup, UserRegs, UserSegment, VirtRange};

/// The kinds of answers; any other is a call that ended its process.
pub const ACCEPTED: u64 = 0;
pub const REFUSED: u64 = 1;
pub const NO: u64 = 3;

#[repr(C)]
pub struct Answer {
    pub kind: u64,
    pub number: u64,
    pub value: u64,
    pub regs: UserRegs,
}

#[repr(C)]
pub struct Planned {
    pub number: u64,
    pub own: u64,
    pub entry: u64,
    pub segments: [UserSegment; 16],
    pub count: usize,
    pub bss: VirtRange,
    pub pages: u64,
}

#[repr(C)]
pub struct Rule {
    pub error: u64,
    pub value: u64,
    pub bss: VirtRange,
}

#[repr(C)]
pub struct SetupRead {
    pub number: u64,
    pub setup: Setup,
}

#[repr(C)]
pub struct FlagsRead {
    pub number: u64,
    pub flags: Flags,
}

#[rustfmt::skip]
extern "C" {
    pub fn holthrimi_start(u: Setup, f: *mut u8, fl: usize, b: *mut u64, bl: usize, p: *mut Procs, number: u64, aout: bool, magic: u32,
        image: *const u8, image_len: usize, name: *const u8, name_len: usize, bytes: *const u8, bytes_len: usize, lengths: *const u64,
        lengths_len: usize) -> Answer;
    pub fn holthrimi_replace(u: Setup, f: *mut u8, fl: usize, b: *mut u64, bl: usize, p: *mut Procs, number: u64, aout: bool, magic: u32,
        image: *const u8, image_len: usize, name: *const u8, name_len: usize, argv: u64) -> Answer;
    pub fn holthrimi_push(u: Setup, f: *mut u8, fl: usize, b: *mut u64, bl: usize, p: *mut Procs, number: u64, pc: u64, top: u64, bytes: *const u8,
        bytes_len: usize, lengths: *const u64, lengths_len: usize) -> Answer;
    pub fn holthrimi_break(u: Setup, f: *mut u8, fl: usize, b: *mut u64, bl: usize, p: *mut Procs, number: u64, addr: u64) -> Answer;
    pub fn holthrimi_fork(u: Setup, f: *mut u8, fl: usize, b: *mut u64, bl: usize, p: *mut Procs, number: u64, child: u64) -> Answer;
    pub fn holthrimi_fork_list(u: Setup, f: *mut u8, fl: usize, b: *mut u64, bl: usize, p: *mut Procs, number: u64, child: u64,
        segments: *const UserSegment, segments_len: usize) -> Answer;
    pub fn holthrimi_end(u: Setup, f: *mut u8, fl: usize, b: *mut u64, bl: usize, p: *mut Procs, number: u64) -> Answer;
    pub fn holthrimi_user_range_ok(u: Setup, f: *const u8, fl: usize, b: *const u64, bl: usize, p: *const Procs, number: u64, addr: u64, len: u64,
        write: bool) -> Answer;
    pub fn holthrimi_copy_from_user(u: Setup, f: *mut u8, fl: usize, b: *mut u64, bl: usize, p: *mut Procs, number: u64, dst: *mut u8,
        dst_len: usize, src: u64) -> Answer;
    pub fn holthrimi_copy_to_user(u: Setup, f: *mut u8, fl: usize, b: *mut u64, bl: usize, p: *mut Procs, number: u64, dst: u64, bytes: *const u8,
        bytes_len: usize) -> Answer;
    pub fn holthrimi_try_copy_str_from_user(u: Setup, f: *const u8, fl: usize, b: *const u64, bl: usize, p: *const Procs, number: u64, dst: *mut u8,
        dst_len: usize, src: u64) -> Answer;
    pub fn holthrimi_book_words(frames: u64) -> u64;
    pub fn holthrimi_check(u: Setup, f: *const u8, fl: usize, b: *const u64, bl: usize, p: *const Procs) -> u64;
    pub fn holthrimi_parse(u: Setup, aout: bool, magic: u32, image: *const u8, image_len: usize) -> u64;
    pub fn holthrimi_plan(u: Setup, aout: bool, magic: u32, image: *const u8, image_len: usize) -> Planned;
    pub fn holthrimi_ibrk(u: Setup, set: bool, start: u64, end: u64, addr: u64, free: u64) -> Rule;
    pub fn holthrimi_read_setup(bytes: *const u8, bytes_len: usize) -> SetupRead;
    pub fn holthrimi_write_setup(u: Setup, out: *mut u8, out_len: usize) -> usize;
    pub fn holthrimi_read_flags(bytes: *const u8, bytes_len: usize) -> FlagsRead;
    pub fn holthrimi_write_flags(flags: *const Flags, out: *mut u8, out_len: usize) -> usize;
    pub fn holthrimi_stack_size(strings: u64, nargs: u64) -> u64;
    pub fn holthrimi_args_error(u: Setup, bytes: *const u8, bytes_len: usize, lengths: *const u64, lengths_len: usize) -> u64;
    pub fn holthrimi_kstrcpy(dst: *mut [u8; 28], src: *const u8, src_len: usize);
}
