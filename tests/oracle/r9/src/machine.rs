//! The machine that the Rust runs on: the deposit machine's numbers, frames, and an address space for each process.
use crate::dat::{Access, MMU, Perm, Proc, ProcArch, PutError, RunQueue, UserRegs};
use crate::mcslock::Lock;
use crate::mem::{PAGE_SIZE_4K, PhysAddr};
use crate::pagealloc::PageAllocError;
use std::cell::UnsafeCell;
use std::marker::PhantomData;

pub const UTZERO: usize = 65_536;
pub const UADDRTOP: usize = crate::fake::UADDRTOP;
pub const USTKTOP: usize = crate::fake::USTKTOP;
pub const USTKSIZE: usize = 16_384;
/// Where the stack begins, and the guard page below it.
pub const STACK: usize = USTKTOP - USTKSIZE;
pub const LIMIT: usize = STACK - PAGE_SIZE_4K;

#[cfg(not(feature = "hooks"))]
pub use core::ptr::MAPPED;

/// An address space. A page's entry is its frame's address + its permission, 1 to 3 as in book words, + SHARED if other processes
/// hold the frame too; or 0 if it isn't mapped.
pub trait Space: 'static {
    fn new() -> Box<Self>;
    fn get(&self, va: usize) -> u64;
    fn set(&mut self, va: usize, entry: u64);
    /// Each mapped page's address and entry, ascending.
    fn mapped(&self) -> impl Iterator<Item = (usize, u64)>;
}

/// A permission as book words have it.
pub fn code(p: Perm) -> u64 {
    match p {
        Perm::Text => 1,
        Perm::Rodata => 2,
        Perm::Data => 3,
    }
}

/// In an entry: the frame has other holders, so a release of the page leaves it in use.
pub const SHARED: u64 = 4;

/// An entry's frame.
pub fn frame(entry: u64) -> PhysAddr {
    PhysAddr(entry & !7)
}

pub(crate) struct Machine {
    pub frames: *mut u8,
    /// The current address space and process, of the type that Host names.
    cur: *mut (),
    up: *mut (),
    /// The access last checked.
    #[cfg(feature = "hooks")]
    pub last: Access,
}

struct Global(UnsafeCell<Machine>);
// SAFETY: the programs over this crate are single threads.
unsafe impl Sync for Global {}
static M: Global = Global(UnsafeCell::new(Machine {
    frames: std::ptr::null_mut(),
    cur: std::ptr::null_mut(),
    up: std::ptr::null_mut(),
    #[cfg(feature = "hooks")]
    last: Access::Read,
}));

pub(crate) fn m() -> &'static mut Machine {
    // SAFETY: a single thread, and no reference is held across another call.
    unsafe { &mut *M.0.get() }
}

/// The current address space.
pub(crate) fn cur<S: Space>() -> &'static mut S {
    // SAFETY: it is a living process's, of Host<S>.
    unsafe { &mut *m().cur.cast() }
}

/// The machine with address spaces S.
pub struct Host<S>(PhantomData<S>);

impl<S: Space> MMU for Host<S> {
    type Pmmu = Box<S>;
    const UADDRTOP: usize = UADDRTOP;
    const UTZERO: usize = UTZERO;
    const USTKTOP: usize = USTKTOP;
    const USTKSIZE: usize = USTKSIZE;

    fn newpmmu() -> Result<Box<S>, PageAllocError> {
        Ok(S::new())
    }
    fn user_page_ok(va: usize, access: Access) -> bool {
        #[cfg(feature = "hooks")]
        {
            m().last = access;
        }
        let e = cur::<S>().get(va);
        e != 0 && (access == Access::Read || e % 4 == code(Perm::Data))
    }
    fn put(va: usize, pa: PhysAddr, perm: Perm) -> Result<(), PutError> {
        let s = cur::<S>();
        if s.get(va) != 0 {
            return Err(PutError::AlreadyMapped);
        }
        s.set(va, pa.0 + code(perm));
        Ok(())
    }
    fn unput(va: usize) -> Option<PhysAddr> {
        let s = cur::<S>();
        let e = s.get(va);
        if e == 0 {
            return None;
        }
        s.set(va, 0);
        Some(frame(e))
    }
    fn kmap<R>(pa: PhysAddr, f: impl FnOnce(*mut u8) -> R) -> R {
        // SAFETY: a frame's address, from the page allocator.
        f(unsafe { m().frames.add(pa.0 as usize) })
    }
    fn flush() {}
    fn flushva(_p: *const ()) {}
    unsafe fn switch(pmmu: &Box<S>) {
        m().cur = &raw const **pmmu as *mut ();
    }
    unsafe fn release(pmmu: Box<S>, mut free_leaf: impl FnMut(PhysAddr)) {
        for (_, e) in pmmu.mapped().filter(|(_, e)| e & SHARED == 0) {
            free_leaf(frame(e));
        }
    }
}

impl<S: Space> ProcArch for Host<S> {
    type Label = ();
    type KStack = ();
    type Fp = ();

    fn up() -> *mut Proc<Self> {
        m().up.cast()
    }
    fn set_up(p: *mut Proc<Self>) {
        m().up = p.cast()
    }

    // Nothing of what follows is reached by the calls.
    fn kstack_alloc() -> Result<(), PageAllocError> {
        unreachable!()
    }
    unsafe fn kstack_free(_s: ()) {
        unreachable!()
    }
    fn new_context(_e: extern "C" fn() -> !, _s: &()) {
        unreachable!()
    }
    fn fork_context(_p: &(), _c: &()) {
        unreachable!()
    }
    unsafe fn enter_user(_r: &UserRegs) -> ! {
        unreachable!()
    }
    unsafe fn swtch(_s: *mut (), _n: *const ()) {
        unreachable!()
    }
    fn sched() -> *mut () {
        unreachable!()
    }
    fn fp_save(_f: &mut ()) {
        unreachable!()
    }
    fn fp_restore(_f: &()) {
        unreachable!()
    }
    fn idle() {
        unreachable!()
    }
    fn run_queue() -> &'static Lock<RunQueue<Self>> {
        unreachable!()
    }
}
