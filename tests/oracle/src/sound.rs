//! The harness's own: numbers 1 to 5. The Rust has neither a lent book nor process numbers.
use crate::script::{Answer, Calls, Record, Stop, within};
use crate::world::{PAGE, World};
use r9::machine::{LIMIT, STACK, USTKTOP, UTZERO};
use r9::mem::PAGE_SIZE_4K;
use r9::procs::{PROCS, WORDS};
use std::collections::BTreeMap;

impl World {
    /// Numbers 1 and 2.
    pub fn enter(&self) -> Answer<()> {
        if !(1..=1_024).any(|frames| (self.bytes, self.words) == (PAGE_SIZE_4K * frames, WORDS * frames)) {
            return Err(Stop::Refused(1));
        }
        if !self.sound() {
            return Err(Stop::Refused(2));
        }
        Ok(())
    }

    /// Whether the lent book is sound, by item 2 of the rules and request 10.
    fn sound(&self) -> bool {
        let mut pages: [BTreeMap<u64, u64>; PROCS + 1] = [const { BTreeMap::new() }; PROCS + 1];
        for words in self.book[..self.words].chunks_exact(WORDS) {
            let mut count = 0;
            let mut first = 0;
            for (n, &w) in (1..=PROCS as u64).zip(words).filter(|(_, w)| **w != 0) {
                // The word less its owner is what a frame's mappings have in common.
                let Some(common) = w.checked_sub(16 * n) else { return false };
                let (page, perm) = (common / PAGE * PAGE, common % PAGE);
                if !(1..=3).contains(&perm)
                    || !(UTZERO as u64..USTKTOP as u64).contains(&page)
                    || pages[n as usize].insert(page, perm).is_some()
                    || count > 0 && (common != first || perm == 3)
                {
                    return false;
                }
                (count, first) = (count + 1, common);
            }
            if words[PROCS] != count {
                return false;
            }
        }
        (1..=PROCS).all(|n| {
            let r = self.record(n);
            if r == Record::default() { pages[n].is_empty() } else { shape(&r) && pages[n] == record_pages(&r) }
        })
    }

    /// Numbers 3 and 4.
    pub fn living(&self, n: u64) -> Answer<usize> {
        let n = within(n)?;
        if self.procs.lives(n) { Ok(n) } else { Err(Stop::Refused(4)) }
    }

    /// Numbers 3 and 5.
    pub fn vacant(&self, n: u64) -> Answer<usize> {
        let n = within(n)?;
        if self.procs.lives(n) { Err(Stop::Refused(5)) } else { Ok(n) }
    }
}

/// Whether a living process's record is as item 2 of the rules wants it.
fn shape(r: &Record) -> bool {
    let (utzero, limit) = (UTZERO as u64, LIMIT as u64);
    let stack = [STACK as u64, USTKTOP as u64, 3];
    let used = r.segments.iter().take_while(|s| **s != [0; 3]).count();
    let (segments, unused) = r.segments.split_at(used);
    let Some((last, image)) = segments.split_last() else { return false };
    let [start, end] = r.bss;
    unused.iter().all(|s| *s == [0; 3])
        && *last == stack
        && image.iter().all(|s| utzero <= s[0] && s[0] < s[1] && s[1] <= limit && s[0] % PAGE == 0 && s[1] % PAGE == 0)
        && segments.windows(2).all(|s| s[0][1] <= s[1][0])
        && utzero <= start
        && start <= end
        && end <= limit
        && end % PAGE == 0
        && image.iter().all(|s| s[1] <= start.next_multiple_of(PAGE))
}

/// A record's pages, each with its permission.
fn record_pages(r: &Record) -> BTreeMap<u64, u64> {
    let bss = [r.bss[0].next_multiple_of(PAGE), r.bss[1], 3];
    let mut pages = BTreeMap::new();
    for s in r.segments.iter().chain([&bss]) {
        pages.extend((s[0]..s[1]).step_by(PAGE_SIZE_4K).map(|va| (va, s[2])));
    }
    pages
}
