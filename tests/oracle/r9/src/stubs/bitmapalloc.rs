//! Stands in for r9's bitmapalloc.rs, which isn't published: which frames are free, a bit each. The highest-numbered free frame
//! goes first, as the rules say. It is as cheap as it can be: taking a frame looks at one word of the bitmap in nearly every
//! case, and the count of used frames is kept; r9's own must look through its bitmap from its start.
use crate::mem::{PhysAddr, PhysRange};
use crate::pagealloc::PageAllocError;

/// Words of 64 frames: for as many as a book has, as many spare ones, and more.
const WORDS: usize = 33;

/// There may be more frames than bits, for the break's rule by itself: those above are free and never taken.
pub struct BitmapPageAlloc<const N: usize, const B: usize> {
    page: usize,
    total: usize,
    used: usize,
    /// A set bit is a free frame; no word above `top` has one.
    free: [u64; WORDS],
    top: usize,
}

impl<const N: usize, const B: usize> BitmapPageAlloc<N, B> {
    pub const fn new_all_allocated(page: usize) -> Self {
        Self { page, total: 0, used: 0, free: [0; WORDS], top: 0 }
    }

    /// Begin anew with the frames of `all`, each free unless it is in `used`.
    pub fn free_unused_ranges(&mut self, all: PhysRange, used: impl Iterator<Item = PhysRange>) -> Result<(), PageAllocError> {
        assert!(all.start.0 == 0);
        self.total = all.size() / self.page;
        self.used = 0;
        self.free = [0; WORDS];
        self.top = WORDS - 1;
        for i in 0..self.total.min(64 * WORDS) {
            self.free[i / 64] |= 1 << (i % 64);
        }
        for r in used {
            for i in r.start.0 as usize / self.page..r.end.0 as usize / self.page {
                self.free[i / 64] &= !(1 << (i % 64));
                self.used += 1;
            }
        }
        Ok(())
    }

    pub fn allocate(&mut self) -> Result<PhysAddr, PageAllocError> {
        while self.free[self.top] == 0 {
            self.top = self.top.checked_sub(1).ok_or(PageAllocError::OutOfSpace)?;
        }
        let w = &mut self.free[self.top];
        let bit = w.ilog2() as usize;
        *w &= !(1 << bit);
        self.used += 1;
        Ok(PhysAddr(((self.top * 64 + bit) * self.page) as u64))
    }

    pub fn deallocate(&mut self, pa: PhysAddr) -> Result<(), PageAllocError> {
        let at = pa.0 as usize;
        if at % self.page != 0 {
            return Err(PageAllocError::MisalignedAddr);
        }
        let i = at / self.page;
        if i >= self.total {
            return Err(PageAllocError::OutOfBounds);
        }
        let (w, bit) = (&mut self.free[i / 64], 1 << (i % 64));
        if *w & bit != 0 {
            return Err(PageAllocError::NotAllocated);
        }
        *w |= bit;
        self.used -= 1;
        self.top = self.top.max(i / 64);
        Ok(())
    }

    /// Bytes used and bytes in all.
    pub fn usage_bytes(&self) -> (usize, usize) {
        (self.used * self.page, self.total * self.page)
    }
}
