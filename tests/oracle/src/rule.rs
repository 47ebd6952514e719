//! The break's rule by itself, with numbers that no memory could hold: ibrk on a machine that maps nothing.
use crate::answer::{number, rust};
use crate::script::{Answer, Stop};
use r9::dat::{Access, MMU, Perm, PutError};
use r9::inside::ibrk;
use r9::machine;
use r9::mem::{PAGE_SIZE_4K, PhysAddr, VirtRange};
use r9::pagealloc::PageAllocError;
use r9::procs::free_frames;
use std::cell::Cell;

/// A growth or shrink of more pages than this is not walked to its end.
const WALK: usize = 1_024;

thread_local! {
    static WALKED: Cell<usize> = const { Cell::new(0) };
    static PAGE: Cell<[u8; PAGE_SIZE_4K]> = const { Cell::new([0; PAGE_SIZE_4K]) };
}

/// What leaves a walk that is too long; the decision has then been made.
struct Enough;

fn step() {
    WALKED.set(WALKED.get() + 1);
    if WALKED.get() > WALK {
        std::panic::resume_unwind(Box::new(Enough));
    }
}

struct Null;

impl MMU for Null {
    type Pmmu = ();
    const UADDRTOP: usize = machine::UADDRTOP;
    const UTZERO: usize = machine::UTZERO;
    const USTKTOP: usize = machine::USTKTOP;
    const USTKSIZE: usize = machine::USTKSIZE;
    fn newpmmu() -> Result<(), PageAllocError> {
        Ok(())
    }
    fn user_page_ok(_va: usize, _access: Access) -> bool {
        false
    }
    fn put(_va: usize, _pa: PhysAddr, _perm: Perm) -> Result<(), PutError> {
        step();
        Ok(())
    }
    fn unput(_va: usize) -> Option<PhysAddr> {
        step();
        None
    }
    fn kmap<R>(_pa: PhysAddr, f: impl FnOnce(*mut u8) -> R) -> R {
        f(PAGE.with(|p| p.as_ptr().cast()))
    }
    fn flush() {}
    fn flushva(_p: *const ()) {}
    unsafe fn switch(_p: &()) {}
    unsafe fn release(_p: (), _f: impl FnMut(PhysAddr)) {}
}

/// The answer, and the bss after it. 4,096 × free is held below 2^64, above anything it is weighed against.
pub fn rule(bss: Option<[u64; 2]>, free: u64, addr: u64) -> Answer<(u64, [u64; 2])> {
    let bss = bss.map(|[start, end]| VirtRange::new(start as usize, end as usize));
    let mut after = bss;
    free_frames(free, std::iter::empty());
    WALKED.set(0);
    let run = std::panic::AssertUnwindSafe(|| rust(|| ibrk::<Null>(&mut after, addr as usize)));
    let r = std::panic::catch_unwind(run);
    // The harness's own: the end after a walk that was left early, and after a growth from an end inside a page, which map_zeroed
    // asserts against. The weighing comes before both and is the Rust's.
    let grown = || Ok((0, [bss.unwrap().start as u64, addr.next_multiple_of(PAGE_SIZE_4K as u64)]));
    match r {
        Err(p) if p.is::<Enough>() => grown(),
        Err(p) => std::panic::resume_unwind(p),
        Ok(Err(Stop::Assert(s))) if s.starts_with("map_zeroed: range") => grown(),
        Ok(Err(stop)) => Err(stop),
        Ok(Ok(Ok(value))) => {
            let after = after.unwrap();
            Ok((value, [after.start as u64, after.end as u64]))
        }
        Ok(Ok(Err(e))) if after == bss => Err(Stop::Refused(number(e))),
        Ok(Ok(Err(e))) => Err(Stop::Assert(format!("refused {e} and changed the bss"))),
    }
}
