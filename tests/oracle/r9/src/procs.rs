//! The processes and what their calls begin and end with: a process is made, becomes the current one, forks, ends.
use crate::chan::Fds;
use crate::dat::{KNAMELEN, MMU, Perm, Proc, ProcArch, Rendez, State, UserSegment, WaitQueue};
use crate::fdt::DeviceTree;
use crate::machine::{Host, SHARED, Space, code, frame, m};
use crate::mem::{PAGE_SIZE_4K, PhysRange, VirtRange};
use crate::{pagealloc, segment};
use std::sync::Arc;

/// Processes are numbered 1 to 16.
pub const PROCS: usize = 16;
/// A frame's words in the book: a place for each process, then the count of its holders.
pub const WORDS: usize = PROCS + 1;

pub struct Procs<S: Space>([Option<Box<Proc<Host<S>>>>; PROCS + 1]);

/// A process's segments, bss and name.
pub struct Record<'a> {
    pub segments: &'a [UserSegment],
    pub bss: Option<VirtRange>,
    pub name: &'a [u8; KNAMELEN],
}

/// Makes the page allocator anew over `count` frames, but for those that are used.
pub fn free_frames(count: u64, used: impl Iterator<Item = PhysRange>) {
    let bytes = count.saturating_mul(PAGE_SIZE_4K as u64);
    pagealloc::init_page_allocator(&DeviceTree { bytes }, used).unwrap();
}

impl<S: Space> Procs<S> {
    /// None, on frames at this address.
    pub fn new(frames: *mut u8) -> Self {
        m().frames = frames;
        #[cfg(feature = "hooks")]
        crate::user::install::<S>();
        Procs([const { None }; PROCS + 1])
    }

    pub fn lives(&self, n: usize) -> bool {
        self.0[n].is_some()
    }

    pub fn record(&self, n: usize) -> Option<Record<'_>> {
        self.0[n].as_ref().map(|p| Record { segments: &p.segments, bss: p.bss, name: &p.text })
    }

    /// The address spaces, each with its process's number.
    pub fn spaces(&self) -> impl Iterator<Item = (usize, &S)> {
        self.0.iter().enumerate().filter_map(|(n, p)| Some((n, &*p.as_ref()?.pmmu)))
    }

    pub fn space_mut(&mut self, n: usize) -> &mut S {
        &mut self.0[n].as_mut().unwrap().pmmu
    }

    /// The book of the address spaces, for so many frames, as request 10 writes it.
    pub fn book(&self, frames: usize) -> Vec<u64> {
        let mut book = vec![0; WORDS * frames];
        for (n, space) in self.spaces() {
            for (va, e) in space.mapped() {
                let words = &mut book[WORDS * (e as usize / PAGE_SIZE_4K)..][..WORDS];
                words[n - 1] = (va + 16 * n) as u64 + e % 4;
                words[PROCS] += 1;
            }
        }
        book
    }

    /// A process with nothing in it.
    pub fn create(&mut self, n: usize) {
        self.0[n] = Some(Box::new(Proc {
            pid: n as u64,
            start: None,
            pmmu: S::new(),
            kstack: (),
            label: (),
            segments: Vec::new(),
            bss: None,
            fds: Some(Arc::new(Fds::empty())),
            exit_status: Vec::new(),
            errstr: [0; sys::ERRMAX],
            state: State::Running,
            fp: (),
            quantum_end: 0,
            next: std::ptr::null_mut(),
            qnext: std::ptr::null_mut(),
            sleep: Rendez::new(),
            timer: Default::default(),
            trend: std::ptr::null(),
            text: [0; KNAMELEN],
            waitq: Arc::new(WaitQueue::new()),
            parent: None,
        }));
    }

    /// Makes `n` the current process.
    pub fn switch(&mut self, n: usize) {
        let p = self.0[n].as_mut().unwrap();
        Host::set_up(&mut **p);
        // SAFETY: nothing refers to user memory between calls.
        unsafe { Host::<S>::switch(&p.pmmu) };
    }

    /// Frees a process's pages and its record.
    pub fn remove(&mut self, n: usize) {
        let p = self.0[n].take().unwrap();
        // SAFETY: as above.
        unsafe { Host::<S>::release(p.pmmu, |pa| pagealloc::free_physpage(pa).unwrap()) };
    }

    /// copy_segments of `n`, the current process, for a child that has an address space; and the child's record, as rfork, which
    /// isn't published, must write it.
    pub fn fork(&mut self, n: usize, child: usize) -> crate::Result<()> {
        let [p, q] = self.0.get_disjoint_mut([n, child]).unwrap();
        let (p, q) = (p.as_ref().unwrap(), q.as_mut().unwrap());
        segment::copy_segments::<Host<S>>(&p.segments, p.bss, &p.pmmu, &q.pmmu)?;
        (q.segments, q.bss, q.text) = (p.segments.clone(), p.bss, p.text);
        Ok(())
    }

    /// What request 10 asks of a fork of `n` beyond the Rust, which copies every page: the copies of text and rodata,
    /// which must be the pages in the spare frames, those from `spare` on, and hold the parent's bytes, are freed, and the child's
    /// pages are mapped where the parent's are. Says what is not so.
    pub fn share(&mut self, n: usize, child: usize, spare: usize) -> Result<(), &'static str> {
        let [p, q] = self.0.get_disjoint_mut([n, child]).unwrap();
        let (p, q) = (&mut p.as_mut().unwrap().pmmu, &mut q.as_mut().unwrap().pmmu);
        let copies: Vec<_> = q.mapped().collect();
        for (va, e) in copies {
            let shares = e % 4 != code(Perm::Data);
            if shares != (frame(e).0 as usize >= spare * PAGE_SIZE_4K) {
                return Err("fork: text and rodata are not the pages in spare frames");
            }
            if !shares {
                continue;
            }
            let own = p.get(va);
            let bytes = |e| {
                Host::<S>::kmap(frame(e), |at| {
                    // SAFETY: a whole frame, which nothing changes meanwhile.
                    unsafe { std::slice::from_raw_parts(at, PAGE_SIZE_4K) }
                })
            };
            if own % 4 != e % 4 || bytes(own) != bytes(e) {
                return Err("fork: a copy of text or rodata is unlike the parent's page");
            }
            pagealloc::free_physpage(frame(e)).unwrap();
            p.set(va, own | SHARED);
            q.set(va, own | SHARED);
        }
        Ok(())
    }

    /// ibrk of `n`, the current process.
    pub fn brk(&mut self, n: usize, addr: usize) -> crate::Result<u64> {
        segment::ibrk::<Host<S>>(&mut self.0[n].as_mut().unwrap().bss, addr)
    }

    /// Sets the name of a process.
    pub fn set_name(&mut self, n: usize, name: [u8; KNAMELEN]) {
        self.0[n].as_mut().unwrap().text = name;
    }
}
