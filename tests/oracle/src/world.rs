//! Frames, book and records.
//!
//! The book is what holds between calls. Before a call the address spaces and the page allocator are made from it, then the Rust
//! runs, and after it the book is written again from the address spaces. The records are the Rust's own processes: segments, bss
//! and text.
//!
//! The Rust copies every page at a fork, where request 10 has text and rodata shared, and frees every page of a
//! process that is replaced. One rule has its frames come out as the book's: a fork finds as many spare frames above the lent ones
//! as the parent has pages of text and rodata, and a frame that other processes hold too is not freed with a process. The Rust asks
//! for text and rodata first and gets the highest frames first, so the spare frames take their copies, and only these; after the
//! fork the spare frames go, and the child's pages are mapped where the parent's are.
use crate::script::{Answer, Stop};
use r9::machine::{Host, SHARED, Space};
use r9::mem::{PAGE_SIZE_4K, PhysRange};
use r9::pagealloc;
use r9::procs::{PROCS, Procs, WORDS, free_frames};
use std::collections::BTreeMap;

pub const PAGE: u64 = PAGE_SIZE_4K as u64;
/// A record's places for segments.
pub const SEGMENTS: usize = 16;

/// An address space: each mapped page's entry.
pub struct Pages(BTreeMap<usize, u64>);

impl Space for Pages {
    fn new() -> Box<Self> {
        Box::new(Pages(BTreeMap::new()))
    }
    fn get(&self, va: usize) -> u64 {
        self.0.get(&(va - va % PAGE_SIZE_4K)).copied().unwrap_or(0)
    }
    fn set(&mut self, va: usize, entry: u64) {
        assert!(va % PAGE_SIZE_4K == 0, "oracle: put or unput at {va}");
        if entry == 0 {
            self.0.remove(&va);
        } else {
            self.0.insert(va, entry);
        }
    }
    fn mapped(&self) -> impl Iterator<Item = (usize, u64)> {
        self.0.iter().map(|(va, e)| (*va, *e))
    }
}

impl Pages {
    /// How many pages are mapped.
    pub fn len(&self) -> usize {
        self.0.len()
    }
}

/// The machine that the Rust runs on here.
pub type Machine = Host<Pages>;

pub struct World {
    /// All frames' bytes, then as many of spare frames.
    pub memory: Vec<u8>,
    /// How many frames there are; how many of their bytes and of the book's words are lent.
    pub count: usize,
    pub bytes: usize,
    pub words: usize,
    pub book: Vec<u64>,
    /// How many spare frames the page allocator has: none but in a fork.
    pub spare: usize,
    pub procs: Procs<Pages>,
    /// Whether frame bytes stay as the Rust leaves them after a failure.
    pub as_left: bool,
}

impl World {
    /// The bytes of the frames.
    pub fn frame_bytes(&self) -> &[u8] {
        &self.memory[..self.count * PAGE_SIZE_4K]
    }

    /// How many frames are lent.
    fn lent(&self) -> usize {
        self.words / WORDS
    }

    /// How many of them no mapping names.
    pub fn free(&self) -> usize {
        self.book[..self.words].chunks(WORDS).filter(|f| f[PROCS] == 0).count()
    }

    /// How many of them hold text or rodata of process `n`, which a fork shares.
    pub fn to_share(&self, n: usize) -> usize {
        self.book[..self.words].chunks(WORDS).filter(|f| [1, 2].contains(&(f[n - 1] % 16))).count()
    }

    /// The address spaces and the page allocator, from the book. Frames that aren't lent are in use.
    fn load(&mut self) {
        for n in 1..=PROCS {
            if self.procs.lives(n) {
                self.procs.space_mut(n).0.clear();
            }
        }
        let mut used = vec![PhysRange::with_end(self.bytes as u64, (self.count * PAGE_SIZE_4K) as u64)];
        for (i, words) in self.book[..self.words].chunks(WORDS).enumerate().filter(|(_, f)| f[PROCS] > 0) {
            let pa = i as u64 * PAGE;
            let shared = if words[PROCS] > 1 { SHARED } else { 0 };
            for (n, w) in (1..).zip(&words[..PROCS]).filter(|(_, w)| **w != 0) {
                self.procs.space_mut(n).set((w / PAGE * PAGE) as usize, pa + w % 16 + shared);
            }
            used.push(PhysRange::with_len(pa, PAGE_SIZE_4K));
        }
        free_frames((self.count + self.spare) as u64, used.into_iter());
    }

    /// The book, from the address spaces; every frame in use must be in it.
    fn store(&mut self) -> Answer<()> {
        if self.procs.spaces().any(|(n, _)| self.procs.record(n).unwrap().segments.len() > SEGMENTS) {
            return Err(Stop::Assert("oracle: too many segments".into()));
        }
        let lent = self.lent();
        if self.procs.spaces().flat_map(|(_, s)| s.mapped()).any(|(_, e)| e >= lent as u64 * PAGE) {
            return Err(Stop::Assert("oracle: a page is in a frame that isn't lent".into()));
        }
        self.book[..self.words].copy_from_slice(&self.procs.book(lent));
        if (self.count - self.free()) * PAGE_SIZE_4K != pagealloc::usage_bytes().0 {
            return Err(Stop::Assert("oracle: a frame is in use and in no address space".into()));
        }
        Ok(())
    }

    /// Run a call of process `n` between `load` and `store`. The harness's own: an ended process's frames and record go, and frame
    /// bytes are as before a call that was refused or ended the process, where the Rust has by then written to frames that are free
    /// again (ORACLE_AS_LEFT=1 shows them so).
    pub fn run<T>(&mut self, n: usize, f: impl FnOnce(&mut Self) -> Answer<T>) -> Answer<T> {
        let before = self.frame_bytes().to_vec();
        self.load();
        let r = f(self);
        if let Err(Stop::Ended(_)) = r {
            self.procs.remove(n);
        }
        if r.is_err() && !self.as_left {
            self.memory[..before.len()].copy_from_slice(&before);
        }
        self.store()?;
        r
    }
}
