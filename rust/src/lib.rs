//! The exec layer of the r9 kernel, proved, as safe functions over its static library (`include/holthrimi.h` has the whole text of what
//! each does, in which order it refuses, and what it changes).
//!
//! [`Lent`] is what every call is lent: frames, a book with 17 words for each, and the records of processes 1 to 16. The library keeps
//! nothing between calls and allocates nothing; the header's head says what it needs of the machine, its stack among it. A call that is
//! refused gives [`Refusal`]: either nothing changed, or the process has ended.

#![cfg_attr(not(test), no_std)]

use core::fmt;

mod sys;

/// Bytes in a page, and in a frame.
pub const PAGE: usize = 4096;
/// The most frames that may be lent.
pub const MAX_FRAMES: usize = 1024;
/// Words of the book for each frame: a place for each of the sixteen processes, and the count of those that hold it.
pub const FRAME_WORDS: usize = 17;
/// The most bytes of a process's stack.
pub const MAX_STACK: u64 = 65536;

/// The permissions of segments and pages: text may be read and executed,
pub const TEXT: u64 = 1;
/// rodata read,
pub const RODATA: u64 = 2;
/// and data read and written.
pub const DATA: u64 = 3;

/// The numbers of refusals; `docs/NUMBERS.md` has all of them in one table. 11 to 28, 42 and 43 are an image's own: a start or replace
/// answers 30 for them.
pub mod number {
    /// Not 4,096 bytes and 17 words a frame, frames outside 1 to 1,024, or argument lengths don't sum to their bytes.
    pub const SIZES: u64 = 1;
    /// The book is not sound: its mappings, counts and the records don't agree.
    pub const TORN: u64 = 2;
    /// A process's number outside 1 to 16.
    pub const NUMBER: u64 = 3;
    /// The process isn't living.
    pub const DEAD: u64 = 4;
    /// The new process's number lives.
    pub const TAKEN: u64 = 5;
    /// An ELF under 64 bytes.
    pub const TRUNCATED: u64 = 11;
    /// The first four bytes are not 127 `ELF`.
    pub const BAD_MAGIC: u64 = 12;
    /// Byte 4 is not 2.
    pub const NOT_ELF64: u64 = 13;
    /// Byte 5 is not 1.
    pub const NOT_LITTLE_ENDIAN: u64 = 14;
    /// Byte 6 or the word at 20 is not 1.
    pub const BAD_VERSION: u64 = 15;
    /// The type at 16 is not 2.
    pub const NOT_EXECUTABLE: u64 = 16;
    /// The machine at 18 is not 183.
    pub const NOT_AARCH64: u64 = 17;
    /// The half-word at 54 is not 56.
    pub const BAD_PHENTSIZE: u64 = 18;
    /// The entry is not a multiple of 4.
    pub const MISALIGNED_ENTRY: u64 = 19;
    /// The table of program headers leaves the image.
    pub const PHDRS_OUT_OF_RANGE: u64 = 20;
    /// A program header's file size is above its memory size.
    pub const FILESZ_OVER_MEMSZ: u64 = 21;
    /// Its file bytes leave the image.
    pub const SEGMENT_OUT_OF_RANGE: u64 = 22;
    /// Its address and offset differ modulo 4,096.
    pub const MISALIGNED: u64 = 23;
    /// It ends above 2^64 - 4,096.
    pub const OVERFLOW: u64 = 24;
    /// The flag table refuses its flags.
    pub const BAD_FLAGS: u64 = 25;
    /// Its first page is below an earlier segment's page end.
    pub const UNORDERED: u64 = 26;
    /// The entry is not in the file bytes of a text segment; of an a.out, in the text after the header.
    pub const ENTRY_NOT_IN_TEXT: u64 = 27;
    /// Its alignment is not 0, 1 or a power of two, or address and offset differ modulo it. It is judged directly after 23.
    pub const BAD_ALIGN: u64 = 28;
    /// The image's layout, or any of 11 to 28, 42 and 43.
    pub const EBADEXEC: u64 = 30;
    /// Over 15 segments recorded.
    pub const TOO_MANY: u64 = 31;
    /// A NUL in an argument; a break without bss.
    pub const EBADARG: u64 = 32;
    /// Arguments over the limit; a break that can't be; too few frames.
    pub const ENOVMEM: u64 = 33;
    /// A break above [`Setup::limit`](super::Setup::limit).
    pub const ESOVERLAP: u64 = 34;
    /// A bad address, which the refusal names: a range, a string, or a push below address 0.
    pub const EFAULT: u64 = 35;
    /// A top of stack that isn't a multiple of 16.
    pub const TOP: u64 = 36;
    /// Lines of the machine's numbers that are not as described.
    pub const SETUP_LINES: u64 = 37;
    /// The machine's numbers break a condition.
    pub const SETUP: u64 = 38;
    /// The flag table is against its rules, or its lines are not as described.
    pub const FLAGS: u64 = 39;
    /// An a.out under 32 bytes, or with another magic.
    pub const NOT_AOUT: u64 = 42;
    /// An a.out whose text and data leave the file.
    pub const AOUT_OUT_OF_RANGE: u64 = 43;
}

/// What the low three bits of a segment's flags stand for, a row for each value: [`TEXT`], [`RODATA`], [`DATA`], or 0 for refused.
pub type Flags = [u8; 8];

/// The machine's numbers: where user text may begin, the top and the size of the user stack, and the end of the user address space; and
/// the flag table. A call refuses numbers that break a condition (`include/holthrimi.h`) with 38, then a table against its rules with 39.
#[repr(C)]
#[derive(Clone, Copy, Debug, PartialEq, Eq)]
pub struct Setup {
    pub utzero: u64,
    pub ustktop: u64,
    pub ustksize: u64,
    pub uaddrtop: u64,
    pub flags: Flags,
}

impl Setup {
    /// The built-in flag table: flags 4 are rodata, 5 text, 6 data.
    pub const BUILT_IN: Flags = [0, 0, 0, 0, RODATA as u8, TEXT as u8, DATA as u8, 0];

    /// The deposit machine's, with the built-in table.
    pub const DEPOSIT: Setup =
        Setup { utzero: 65536, ustktop: 1 << 47, ustksize: 16384, uaddrtop: 1 << 47, flags: Setup::BUILT_IN };

    /// The highest address that an image or a bss may end at: one guard page lies between it and the stack.
    pub const fn limit(self) -> u64 {
        self.ustktop.saturating_sub(self.ustksize).saturating_sub(4096)
    }

    /// What arguments may take of the stack, a quarter of it.
    pub const fn arg_limit(self) -> u64 {
        self.ustksize / 4
    }

    /// The numbers that four lines give, `UTZERO=65536` and so on, with the built-in flag table; refused with 37 for bytes that are not
    /// as described, then with 38.
    pub fn read(lines: &[u8]) -> Result<Setup> {
        let r = unsafe { sys::holthrimi_read_setup(lines.as_ptr(), lines.len()) };
        match r.number {
            0 => Ok(r.setup),
            number => Err(Refusal::Refused(number)),
        }
    }

    /// The four lines of its numbers, put into a buffer that has room for the longest.
    pub fn lines(self, out: &mut [u8; 117]) -> &[u8] {
        let n = unsafe { sys::holthrimi_write_setup(self, out.as_mut_ptr(), out.len()) };
        &out[..n]
    }
}

/// The flag table that eight lines give, `flags0=refused` and so on; refused with 39 for bytes that are not as described and for a table
/// against its rules.
pub fn read_flags(lines: &[u8]) -> Result<Flags> {
    let r = unsafe { sys::holthrimi_read_flags(lines.as_ptr(), lines.len()) };
    match r.number {
        0 => Ok(r.flags),
        number => Err(Refusal::Refused(number)),
    }
}

/// The eight lines of a flag table, put into a buffer that has room for the longest; none of a table against its rules.
pub fn flags_lines(flags: Flags, out: &mut [u8; 120]) -> &[u8] {
    let n = unsafe { sys::holthrimi_write_flags(&flags, out.as_mut_ptr(), out.len()) };
    &out[..n]
}

/// The form that an image is read in.
#[derive(Clone, Copy, Debug, PartialEq, Eq)]
pub enum Form {
    /// A static aarch64 ELF.
    Elf,
    /// A Plan 9 a.out whose first word is to be this magic, any 32-bit number: Plan 9's for arm64 is 4 * 28 * 28 + 7, or the same with
    /// the header bit, 0x8000. Header and text are loaded as text at [`Setup::utzero`], data from the next page on, and bss behind it.
    Aout(u32),
}

impl Form {
    /// As the library takes it: whether it is an a.out, and the magic, which an ELF has none of.
    fn named(self) -> (bool, u32) {
        match self {
            Form::Elf => (false, 0),
            Form::Aout(magic) => (true, magic),
        }
    }
}

/// A range of user addresses, from `start` up to, but not including, `end`.
#[repr(C)]
#[derive(Clone, Copy, Debug, Default, PartialEq, Eq)]
pub struct VirtRange {
    pub start: u64,
    pub end: u64,
}

/// Whole pages, all mapped with `perm`; all zero in an unused place.
#[repr(C)]
#[derive(Clone, Copy, Debug, Default, PartialEq, Eq)]
pub struct UserSegment {
    pub range: VirtRange,
    pub perm: u64,
}

/// A process's record: its segments, the stack last, then unused places; its name; and its bss. All zero: no process.
#[repr(C)]
#[derive(Clone, Copy, Debug, Default, PartialEq, Eq)]
pub struct Proc {
    pub segments: [UserSegment; 16],
    pub text: [u8; 28],
    pub bss: VirtRange,
}

impl Proc {
    /// Its segments, up to the first unused place: the list that [`Lent::fork_list`] is lent, of a copy of the record.
    pub fn used(&self) -> &[UserSegment] {
        let n = self.segments.iter().position(|s| *s == UserSegment::default()).unwrap_or(16);
        &self.segments[..n]
    }
}

/// The records of processes 1 to 16: process n is `all[n - 1]`.
#[repr(C)]
#[derive(Clone, Copy, Debug, Default, PartialEq, Eq)]
pub struct Procs {
    pub all: [Proc; 16],
}

/// What a program is entered with.
#[repr(C)]
#[derive(Clone, Copy, Debug, Default, PartialEq, Eq)]
pub struct UserRegs {
    pub pc: u64,
    pub sp: u64,
    pub argc: u64,
    pub argv: u64,
}

/// Why a call was not accepted, by its number; with 35, and only then, by the bad address.
#[derive(Clone, Copy, Debug, PartialEq, Eq)]
pub enum Refusal {
    /// Nothing changed.
    Refused(u64),
    /// The process has ended: its pages are released, its record zero, frame bytes as before.
    Ended(u64),
    /// 35 of [`Lent::try_copy_str_from_user`]: the address of the first byte that can't be read. Nothing changed but its buffer.
    RefusedAt { address: u64 },
    /// 35 of every other call: the process has ended, as above.
    EndedAt { address: u64 },
}

impl Refusal {
    pub fn number(self) -> u64 {
        match self {
            Refusal::Refused(number) | Refusal::Ended(number) => number,
            Refusal::RefusedAt { .. } | Refusal::EndedAt { .. } => number::EFAULT,
        }
    }

    /// The bad address, with 35.
    pub fn address(self) -> Option<u64> {
        match self {
            Refusal::RefusedAt { address } | Refusal::EndedAt { address } => Some(address),
            Refusal::Refused(_) | Refusal::Ended(_) => None,
        }
    }
}

impl fmt::Display for Refusal {
    fn fmt(&self, f: &mut fmt::Formatter<'_>) -> fmt::Result {
        match self {
            Refusal::Refused(number) => write!(f, "refused {number}"),
            Refusal::Ended(number) => write!(f, "ended {number}"),
            Refusal::RefusedAt { address } => write!(f, "refused {} at {address}", number::EFAULT),
            Refusal::EndedAt { address } => write!(f, "ended {} at {address}", number::EFAULT),
        }
    }
}

impl core::error::Error for Refusal {}

pub type Result<T> = core::result::Result<T, Refusal>;

/// Whether a range can be accessed: what [`Lent::user_range_ok`] finds.
#[derive(Clone, Copy, Debug, PartialEq, Eq)]
pub enum Checked {
    /// All of it.
    Fine,
    /// Not all of it. The bad address is its start, if that is above [`Setup::uaddrtop`]; otherwise that of its lowest byte below
    /// `uaddrtop` whose page isn't mapped, or is to be written and isn't data; otherwise `uaddrtop`, which it reaches past.
    Bad { address: u64 },
}

fn told(answer: sys::Answer) -> Result<sys::Answer> {
    let address = answer.value;
    match (answer.kind, answer.number) {
        (sys::ACCEPTED | sys::NO, _) => Ok(answer),
        (sys::REFUSED, number::EFAULT) => Err(Refusal::RefusedAt { address }),
        (sys::REFUSED, number) => Err(Refusal::Refused(number)),
        (_, number::EFAULT) => Err(Refusal::EndedAt { address }),
        (_, number) => Err(Refusal::Ended(number)),
    }
}

/// What is lent to every call, with the machine's numbers and the flag table, which are the same throughout. 1 to 1,024 frames have
/// 4,096 bytes and [`FRAME_WORDS`] words of the book each ([`book_words`]); book and records are zero at first. The first sixteen words
/// of a frame are the places of processes 1 to 16, 0 or page address + 16 * owner + permission; the last is how many of them are not 0.
pub struct Lent<'a> {
    pub setup: Setup,
    pub frames: &'a mut [u8],
    pub book: &'a mut [u64],
    pub procs: &'a mut Procs,
}

/// The first arguments of a call, taken apart.
macro_rules! lent {
    ($s:expr) => {
        ($s.setup, $s.frames.as_mut_ptr(), $s.frames.len(), $s.book.as_mut_ptr(), $s.book.len(), &mut *$s.procs)
    };
}

/// The same of a call that changes none of them.
macro_rules! looked {
    ($s:expr) => {
        ($s.setup, $s.frames.as_ptr(), $s.frames.len(), $s.book.as_ptr(), $s.book.len(), &*$s.procs)
    };
}

// SAFETY of all calls into the library, here and below: every pointer handed on is a slice's or a reference's, with the slice's
// length: not null, aligned, and alone where it is `&mut`. The library's contracts ask nothing else.
impl Lent<'_> {
    /// Starts process `number`, which must not live, from an image of a form. Its arguments are `bytes` cut by `lengths`.
    /// Refused with 1, 38, 39, 2, 3, 5, 32, 33 (arguments), 30, 31 or 33 (frames), in this order.
    pub fn start(
        &mut self,
        number: u64,
        form: Form,
        image: &[u8],
        name: &[u8],
        bytes: &[u8],
        lengths: &[u64],
    ) -> Result<UserRegs> {
        let (u, f, fl, b, bl, p) = lent!(self);
        let (aout, magic) = form.named();
        let (i, n, a, l) = (image, name, bytes, lengths);
        told(unsafe {
            sys::holthrimi_start(
                u,
                f,
                fl,
                b,
                bl,
                p,
                number,
                aout,
                magic,
                i.as_ptr(),
                i.len(),
                n.as_ptr(),
                n.len(),
                a.as_ptr(),
                a.len(),
                l.as_ptr(),
                l.len(),
            )
        })
        .map(|t| t.regs)
    }

    /// Replaces a process's program by an image of a form; `argv` is the user address of its array of pointers to arguments.
    /// Refused with 1, 38, 39, 2 to 4, 30, 31, 33 (arguments); ended with 35, at the first address in reading order that can't be read, or
    /// with 33 if the frames that it holds alone and the free ones don't suffice.
    pub fn replace(&mut self, number: u64, form: Form, image: &[u8], name: &[u8], argv: u64) -> Result<UserRegs> {
        let (u, f, fl, b, bl, p) = lent!(self);
        let (aout, magic) = form.named();
        let (i, n) = (image, name);
        told(unsafe {
            sys::holthrimi_replace(u, f, fl, b, bl, p, number, aout, magic, i.as_ptr(), i.len(), n.as_ptr(), n.len(), argv)
        })
        .map(|t| t.regs)
    }

    /// Pushes arguments onto a process's stack: their strings end at `top`, their pointers and a null lie below. Refused with 1, 38, 39,
    /// 2 to 4, 36, 32, 33; ended with 35, at 0 if it goes below address 0, else as [`Checked::Bad`] of the first part that can't be
    /// written: of each argument its bytes, its NUL and its pointer, and at the end the null.
    pub fn push(&mut self, number: u64, pc: u64, top: u64, bytes: &[u8], lengths: &[u64]) -> Result<UserRegs> {
        let (u, f, fl, b, bl, p) = lent!(self);
        let (a, l) = (bytes, lengths);
        told(unsafe { sys::holthrimi_push(u, f, fl, b, bl, p, number, pc, top, a.as_ptr(), a.len(), l.as_ptr(), l.len()) })
            .map(|t| t.regs)
    }

    /// Moves the end of a process's bss to `addr`, rounded up to a page. Address 0 changes nothing and gives the bss's start.
    /// Refused with 1, 38, 39, 2 to 4, 33, 34.
    pub fn brk(&mut self, number: u64, addr: u64) -> Result<u64> {
        let (u, f, fl, b, bl, p) = lent!(self);
        told(unsafe { sys::holthrimi_break(u, f, fl, b, bl, p, number, addr) }).map(|t| t.value)
    }

    /// Forks a process as `child`, which must not live: it shares the parent's text and rodata frames and takes a copy of every data page,
    /// bss and stack among them. Refused with 1, 38, 39, 2 to 5, or with 33 if the free frames don't hold the copy.
    pub fn fork(&mut self, number: u64, child: u64) -> Result<()> {
        let (u, f, fl, b, bl, p) = lent!(self);
        told(unsafe { sys::holthrimi_fork(u, f, fl, b, bl, p, number, child) }).map(|_| ())
    }

    /// The same with a list lent: the segments of the parent's record, in its order, the stack last, without unused places
    /// ([`Proc::used`]). Refused as [`Lent::fork`], and with 2, directly after a torn book's, if `number` is 1 to 16 and the list is
    /// unlike its record's.
    pub fn fork_list(&mut self, number: u64, child: u64, segments: &[UserSegment]) -> Result<()> {
        let (u, f, fl, b, bl, p) = lent!(self);
        let s = segments;
        told(unsafe { sys::holthrimi_fork_list(u, f, fl, b, bl, p, number, child, s.as_ptr(), s.len()) }).map(|_| ())
    }

    /// Ends a process: its pages are released, and a frame without a holder is free and keeps its bytes. Refused with 1, 38, 39, 2 to 4.
    pub fn end(&mut self, number: u64) -> Result<()> {
        let (u, f, fl, b, bl, p) = lent!(self);
        told(unsafe { sys::holthrimi_end(u, f, fl, b, bl, p, number) }).map(|_| ())
    }

    /// Whether a process may read, or write, `len` bytes from `addr` on. An empty range is fine, mapped or not, unless it starts above
    /// [`Setup::uaddrtop`]. Nothing changes. Refused with 1, 38, 39, 2 to 4.
    pub fn user_range_ok(&self, number: u64, addr: u64, len: u64, write: bool) -> Result<Checked> {
        let (u, f, fl, b, bl, p) = looked!(self);
        told(unsafe { sys::holthrimi_user_range_ok(u, f, fl, b, bl, p, number, addr, len, write) }).map(|t| match t.kind {
            sys::NO => Checked::Bad { address: t.value },
            _ => Checked::Fine,
        })
    }

    /// Copies bytes of a process from `src` on into the whole of `dst`. Refused with 1, 38, 39, 2 to 4; ended with 35, at the address of
    /// [`Checked::Bad`], and no byte copied.
    pub fn copy_from_user(&mut self, number: u64, dst: &mut [u8], src: u64) -> Result<()> {
        let (u, f, fl, b, bl, p) = lent!(self);
        told(unsafe { sys::holthrimi_copy_from_user(u, f, fl, b, bl, p, number, dst.as_mut_ptr(), dst.len(), src) }).map(|_| ())
    }

    /// Copies bytes to a process from `dst` on. Refused with 1, 38, 39, 2 to 4; ended with 35, at the address of [`Checked::Bad`], and no
    /// byte copied.
    pub fn copy_to_user(&mut self, number: u64, dst: u64, bytes: &[u8]) -> Result<()> {
        let (u, f, fl, b, bl, p) = lent!(self);
        told(unsafe { sys::holthrimi_copy_to_user(u, f, fl, b, bl, p, number, dst, bytes.as_ptr(), bytes.len()) }).map(|_| ())
    }

    /// Copies a string of a process into `dst` up to its NUL, which isn't stored, and gives its length, or that of `dst`. Refused with
    /// 1, 38, 39, 2 to 4, or with 35 at the first byte that can't be read: those before it stay copied, and the process lives.
    pub fn try_copy_str_from_user(&self, number: u64, dst: &mut [u8], src: u64) -> Result<usize> {
        let (u, f, fl, b, bl, p) = looked!(self);
        told(unsafe { sys::holthrimi_try_copy_str_from_user(u, f, fl, b, bl, p, number, dst.as_mut_ptr(), dst.len(), src) })
            .map(|t| t.value as usize)
    }

    /// Whether frames, book and records are such that calls go on: refused with 1, 38, 39 or 2.
    pub fn check(&self) -> Result<()> {
        let (u, f, fl, b, bl, p) = looked!(self);
        match unsafe { sys::holthrimi_check(u, f, fl, b, bl, p) } {
            0 => Ok(()),
            number => Err(Refusal::Refused(number)),
        }
    }
}

/// The words of the book of so many frames, [`FRAME_WORDS`] for each; 0 for a number outside 1 to 1,024, which no call takes.
pub fn book_words(frames: usize) -> usize {
    unsafe { sys::holthrimi_book_words(frames as u64) as usize }
}

/// What a start needs of an image: its entry point; its record's segments, `count` of the image, then the stack; its bss; and the pages
/// that it takes with the stack.
#[derive(Clone, Copy, Debug, PartialEq, Eq)]
pub struct Plan {
    pub entry: u64,
    pub segments: [UserSegment; 16],
    pub count: usize,
    pub bss: VirtRange,
    pub pages: u64,
}

/// The plan of an image; refused with 38, 39, 30 or 31.
pub fn plan(setup: Setup, form: Form, image: &[u8]) -> Result<Plan> {
    let (aout, magic) = form.named();
    let p = unsafe { sys::holthrimi_plan(setup, aout, magic, image.as_ptr(), image.len()) };
    if p.number != 0 {
        return Err(Refusal::Refused(p.number));
    }
    Ok(Plan { entry: p.entry, segments: p.segments, count: p.count, bss: p.bss, pages: p.pages })
}

/// The check of an image by the reader of its form; refused with 38 or 39, then with one of 11 to 28 for an ELF, and with 42, 43, 19 or
/// 27, in this order, for an a.out.
pub fn parse(setup: Setup, form: Form, image: &[u8]) -> Result<()> {
    let (aout, magic) = form.named();
    match unsafe { sys::holthrimi_parse(setup, aout, magic, image.as_ptr(), image.len()) } {
        0 => Ok(()),
        number => Err(Refusal::Refused(number)),
    }
}

/// The break's rule by itself, over an optional bss with any numbers in it and a count of free frames: its value, and the bss
/// afterwards; refused with 38, 39, 32, 33 or 34.
pub fn ibrk(setup: Setup, bss: Option<VirtRange>, addr: u64, free: u64) -> Result<(u64, VirtRange)> {
    let r = bss.unwrap_or_default();
    let b = unsafe { sys::holthrimi_ibrk(setup, bss.is_some(), r.start, r.end, addr, free) };
    match b.error {
        0 => Ok((b.value, b.bss)),
        number => Err(Refusal::Refused(number)),
    }
}

/// The stack that `nargs` arguments take whose strings have `strings` bytes with their NULs; saturating.
pub fn stack_size(strings: u64, nargs: u64) -> u64 {
    unsafe { sys::holthrimi_stack_size(strings, nargs) }
}

/// Whether arguments can be pushed; refused with 1, 38, 39, 32 or 33.
pub fn check_args(setup: Setup, bytes: &[u8], lengths: &[u64]) -> Result<()> {
    match unsafe { sys::holthrimi_args_error(setup, bytes.as_ptr(), bytes.len(), lengths.as_ptr(), lengths.len()) } {
        0 => Ok(()),
        number => Err(Refusal::Refused(number)),
    }
}

/// A name in 28 bytes, as Plan 9's kstrcpy copies it.
pub fn kstrcpy(src: &[u8]) -> [u8; 28] {
    let mut dst = [0; 28];
    unsafe { sys::holthrimi_kstrcpy(&mut dst, src.as_ptr(), src.len()) };
    dst
}
