//! The Rust's side: the published files (the crate r9 of tests/oracle) on a machine whose user memory is the host's own.
//!
//! What of it lies inside the clock:
//! - `put`, `unput` and `user_page_ok` look one entry of a flat table up, where a real MMU's code walks four levels of tables, takes
//!   frames for new ones and orders its writes (barriers, the TLB): the stand-in is cheaper;
//! - `newpmmu` (replace alone) takes a table of 8 KiB from the heap and zeroes it, and `release` (replace and end) goes through it
//!   once: a real one does the same with its tables;
//! - a process's pages are mapped at their addresses before the clock starts, and uaccess.rs touches them directly, as in r9
//!   (straight.rs of r9's core has the one exception);
//! - the page allocator and its lock, which tests one flag, are cheaper than r9's can be.
//!
//! Before the clock starts: the process, its address space, and the mapping of user pages; for a fork, spare frames above the lent
//! ones. After it stops: what a fork of the library does and the Rust does not, text and rodata shared.
use crate::clock::timed;
use crate::region::{PAGE, Region};
use r9::dat::{Access, MMU, UserRegs};
use r9::inside::{self, Exec};
use r9::machine::{self, Host, MAPPED, SHARED, STACK, Space, USTKTOP};
use r9::mem::PhysRange;
use r9::procs::{PROCS, Procs, WORDS, free_frames};
use r9::{elf, exec, pagealloc, uaccess};
use std::sync::atomic::Ordering::Relaxed;

/// Pages below 8 MiB, and the stack's four.
const LOW: usize = 2_048;

/// An address space: each page's entry.
pub struct Flat([u32; LOW + 4]);

/// Where a page's entry stands.
fn slot(va: usize) -> Option<usize> {
    if va < LOW * PAGE {
        Some(va / PAGE)
    } else if (STACK..USTKTOP).contains(&va) {
        Some(LOW + (va - STACK) / PAGE)
    } else {
        None
    }
}

/// The address of the page whose entry stands at `i`.
fn page(i: usize) -> usize {
    if i < LOW { i * PAGE } else { STACK + (i - LOW) * PAGE }
}

impl Space for Flat {
    fn new() -> Box<Self> {
        Box::new(Flat([0; LOW + 4]))
    }
    fn get(&self, va: usize) -> u64 {
        slot(va).map_or(0, |i| self.0[i] as u64)
    }
    fn set(&mut self, va: usize, entry: u64) {
        self.0[slot(va).expect("bench: a page outside the table")] = entry as u32;
    }
    fn mapped(&self) -> impl Iterator<Item = (usize, u64)> {
        self.0.iter().enumerate().filter(|(_, e)| **e != 0).map(|(i, e)| (page(i), *e as u64))
    }
}

type Machine = Host<Flat>;

/// The frames and the processes. Its calls are the Rust's own work alone, for the current process.
pub struct World {
    region: &'static Region,
    stack: Region,
    frames: usize,
    procs: Procs<Flat>,
}

impl World {
    /// No process yet. The region has as many spare frames above these.
    pub fn new(region: &'static Region, frames: usize) -> Self {
        assert!(region.bytes().len() >= 2 * frames * PAGE);
        region.bytes()[..frames * PAGE].fill(0);
        free_frames(frames as u64, std::iter::empty());
        // Where the stack's pages are mapped. A kernel buffer must not lie where the stack's addresses are.
        let stack = Region::new(4 * PAGE);
        assert!((&raw const stack as usize) < STACK, "bench: run with address randomisation on");
        MAPPED.store(stack.start as usize, Relaxed);
        World { region, stack, frames, procs: Procs::new(region.start) }
    }

    /// A process with nothing in it, which becomes the current one.
    pub fn create(&mut self, n: usize) {
        self.procs.create(n);
        self.procs.switch(n);
    }

    pub fn remove(&mut self, n: usize) {
        self.procs.remove(n);
    }

    /// Makes `n` the current process, with its pages mapped at their addresses.
    pub fn enter(&mut self, n: usize) {
        self.procs.switch(n);
        for (va, e) in self.procs.space_mut(n).mapped() {
            let at = if va < STACK { va } else { va - STACK + self.stack.start as usize };
            self.region.map_at(at, machine::frame(e).0 as usize);
        }
    }

    /// Starts process `n`, so that it is the current one with its pages mapped. The first start tells which frames it takes: its
    /// arguments go nowhere. The second takes the same.
    pub fn start_entered(&mut self, n: usize, image: &[u8], args: &[&[u8]]) -> UserRegs {
        self.create(n);
        start(image, args);
        self.enter(n);
        self.remove(n);
        self.create(n);
        start(image, args)
    }

    pub fn book(&self) -> Vec<u64> {
        self.procs.book(self.frames)
    }

    pub fn bytes(&self) -> &'static [u8] {
        &self.region.bytes()[..self.frames * PAGE]
    }

    /// How long the fork of `n` takes, which copies every page. The copies of text and rodata go to as many spare frames, which are free
    /// for so long; then the child shares the parent's, as the library has it.
    pub fn fork(&mut self, n: usize, child: usize) -> f64 {
        let book = self.book();
        let to_share = book.chunks(WORDS).filter(|f| [1, 2].contains(&(f[n - 1] % 16))).count();
        self.procs.create(child);
        self.procs.switch(n);
        free(&book, to_share);
        let t = timed(|| self.procs.fork(n, child).unwrap());
        self.procs.share(n, child, self.frames).unwrap();
        free(&self.book(), 0);
        t
    }

    /// Ends the child of a fork. A page that it shared with one other process is that one's alone.
    pub fn end(&mut self, child: usize) {
        self.remove(child);
        let book = self.book();
        for n in 1..=PROCS {
            if self.procs.lives(n) {
                let space = self.procs.space_mut(n);
                let alone = |(_, e): &(usize, u64)| book[WORDS * (*e as usize / PAGE) + PROCS] == 1;
                for (va, e) in space.mapped().filter(alone).collect::<Vec<_>>() {
                    space.set(va, e & !SHARED);
                }
            }
        }
    }

    pub fn brk(&mut self, n: usize, addr: usize) -> u64 {
        self.procs.brk(n, addr).unwrap()
    }
}

/// Makes the page allocator anew: the frames that a book has free, and so many spare ones above them.
fn free(book: &[u64], spare: usize) {
    let used = book.chunks(WORDS).enumerate().filter(|(_, f)| f[PROCS] > 0);
    let used = used.map(|(k, _)| PhysRange::with_len((k * PAGE) as u64, PAGE));
    free_frames((book.len() / WORDS + spare) as u64, used);
    // It looks for its highest free frame now, not inside the clock.
    if let Ok(highest) = pagealloc::allocate_physpage() {
        pagealloc::free_physpage(highest).unwrap();
    }
}

pub fn parse(image: &[u8]) -> bool {
    elf::parse(image).is_ok()
}

pub fn start(image: &[u8], args: &[&[u8]]) -> UserRegs {
    exec::exec::<Machine>(image, "reader", args).unwrap()
}

/// What sysexec does after reading the image, but for the closing of descriptors: the port leaves both out.
pub fn replace(image: &[u8], argv: usize) -> UserRegs {
    Exec::layout::<Machine>(&elf::parse(image).unwrap()).unwrap();
    let args = Exec::copy_argv::<Machine>(argv).unwrap().unwrap();
    let pmmu = Machine::newpmmu().unwrap();
    Exec::replace_pmmu::<Machine>(pmmu);
    let argv: Vec<&[u8]> = args.iter().map(Vec::as_slice).collect();
    start(image, &argv)
}

pub fn push(pc: usize, top: usize, args: &[&[u8]]) -> UserRegs {
    exec::push_args::<Machine>(pc, top, args).unwrap()
}

pub fn range(addr: usize, len: usize, write: bool) -> bool {
    inside::user_range_ok::<Machine>(addr, len, if write { Access::Write } else { Access::Read })
}

pub fn from(dst: &mut [u8], src: usize) {
    uaccess::copy_from_user::<Machine>(dst, src)
}

pub fn to(dst: usize, src: &[u8]) {
    uaccess::copy_to_user::<Machine>(dst, src)
}

pub fn string(dst: &mut [u8], src: usize) -> usize {
    inside::try_copy_str_from_user::<Machine>(dst, src).unwrap()
}
