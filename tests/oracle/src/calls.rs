//! The ten calls over the Rust.
use crate::answer::{number, result, rust};
use crate::listing;
use crate::names::{kstrcpy, openable};
use crate::rule;
use crate::script::{Answer, Bad, Calls, Record, Regs, Stop, same_list, within};
use crate::world::{Machine, SEGMENTS, World};
use r9::dat::{Access, UserRegs};
use r9::inside::{self, Exec};
use r9::machine::code;
use r9::mem::PAGE_SIZE_4K;
use r9::procs::{Procs, WORDS};
use r9::{devroot, elf, error, exec, uaccess};
use std::sync::atomic::{AtomicUsize, Ordering::Relaxed};

/// Forks that were accepted where the Rust, which copies text and rodata too, has too few free frames for all pages; and replaces
/// that ended by 33 where the Rust, which would free what others hold too, has enough.
pub static FORKS: AtomicUsize = AtomicUsize::new(0);
pub static REPLACES: AtomicUsize = AtomicUsize::new(0);

fn regs(r: UserRegs) -> Regs {
    [r.pc, r.sp, r.argc, r.argv].map(|v| v as u64)
}

/// The harness's own: number 31, for an image that loads and has more segments than a record holds beside the stack.
fn few_enough(image: &[u8]) -> Answer<()> {
    let many = rust(|| {
        let Ok(elf) = elf::parse(image) else { return false };
        let Ok(bss) = Exec::layout::<Machine>(&elf) else { return false };
        Exec::segments(&elf, bss).len() > SEGMENTS - 1
    })?;
    if many { Err(Stop::Refused(31)) } else { Ok(()) }
}

impl World {
    /// Run a call of process `n`, which must live, as the current process.
    fn of<T>(&mut self, n: u64, f: impl FnOnce(&mut Self, usize) -> Answer<T>) -> Answer<T> {
        self.enter()?;
        let n = self.living(n)?;
        self.run(n, |w| {
            w.procs.switch(n);
            f(w, n)
        })
    }

    /// exec, with number 31 between its 30 and its 33.
    fn checked_exec(&mut self, n: usize, name: &[u8], image: &[u8], args: &[&[u8]]) -> Answer<UserRegs> {
        result(|| Exec::args_size::<Machine>(args))?;
        few_enough(image)?;
        let utf8 = std::str::from_utf8(name);
        let regs = result(|| exec::exec::<Machine>(image, utf8.unwrap_or("x"), args))?;
        if utf8.is_err() {
            self.set_name(n, name)?;
        }
        Ok(regs)
    }
}

impl Calls for World {
    fn new(count: usize, fill: u8) -> Self {
        let bytes = count * PAGE_SIZE_4K;
        let mut memory = vec![fill; 2 * bytes];
        let procs = Procs::new(memory.as_mut_ptr());
        let as_left = std::env::var_os("ORACLE_AS_LEFT").is_some();
        let words = WORDS * count;
        World { memory, count, bytes, words, book: vec![0; words], spare: 0, procs, as_left }
    }

    fn frames(&self) -> &[u8] {
        self.frame_bytes()
    }

    fn book(&mut self) -> &mut [u64] {
        &mut self.book
    }

    fn record(&self, n: usize) -> Record {
        let mut r = Record::default();
        if let Some(p) = self.procs.record(n) {
            for (to, s) in r.segments.iter_mut().zip(p.segments) {
                *to = [s.range.start as u64, s.range.end as u64, code(s.perm)];
            }
            r.name = *p.name;
            r.bss = p.bss.map_or([0; 2], |b| [b.start as u64, b.end as u64]);
        }
        r
    }

    fn lend(&mut self, bytes: usize, words: usize) {
        (self.bytes, self.words) = (bytes, words);
    }

    fn start(&mut self, n: u64, name: &[u8], image: &[u8], args: &[&[u8]]) -> Answer<Regs> {
        self.enter()?;
        let n = self.vacant(n)?;
        self.run(n, |w| {
            w.procs.create(n);
            w.procs.switch(n);
            let r = w.checked_exec(n, name, image, args).map(regs);
            if r.is_err() {
                w.procs.remove(n);
            }
            r
        })
    }

    fn replace(&mut self, n: u64, name: &[u8], image: &[u8], argv: u64) -> Answer<Regs> {
        self.of(n, |w, n| {
            few_enough(image)?;
            let room = w.free() + w.procs.space_mut(n).len();
            // sysexec opens the file first. A name that dev.rs would not open is set after it instead, by the same function of
            // exec.rs.
            let file = openable(name);
            devroot::FILE.set(image.to_vec());
            let r = rust(|| inside::sysexec::<Machine>(file.unwrap_or("/bin/x").to_string(), argv as usize));
            if let Err(Stop::Ended(33)) = r {
                REPLACES.fetch_add((listing::pages(image) <= room) as usize, Relaxed);
            }
            let r = r?.map_err(|e| match e {
                error::Error::Str(e) => Stop::Refused(number(e)),
                e => Stop::Assert(format!("{e:?}")),
            })?;
            if file.is_none() {
                w.set_name(n, name)?;
            }
            Ok(regs(r))
        })
    }

    fn push(&mut self, n: u64, pc: u64, top: u64, args: &[&[u8]]) -> Answer<Regs> {
        self.of(n, |_, _| {
            // The harness's own: number 36, where the Rust asserts, and a push below address 0, where the Rust's subtraction has
            // no answer.
            if top % 16 != 0 {
                return Err(Stop::Refused(36));
            }
            let strings = result(|| Exec::args_size::<Machine>(args))? as u64;
            if top < strings || (top - strings) / 8 * 8 < 8 * (args.len() as u64 + 1) {
                return Err(Stop::Ended(35));
            }
            result(|| exec::push_args::<Machine>(pc as usize, top as usize, args)).map(regs)
        })
    }

    fn brk(&mut self, n: u64, addr: u64) -> Answer<u64> {
        self.of(n, |w, n| result(|| w.procs.brk(n, addr as usize)))
    }

    fn fork(&mut self, parent: u64, child: u64, list: Option<&[[u64; 3]]>) -> Answer<()> {
        self.enter()?;
        // The harness's own: a list unlike the record is number 2. A number outside 1 to 16 has no record to be unlike.
        if let (Some(list), Ok(n)) = (list, within(parent)) {
            if !same_list(list, &self.record(n)) {
                return Err(Stop::Refused(2));
            }
        }
        within(child)?;
        let n = self.living(parent)?;
        let c = self.vacant(child)?;
        // The harness's own: text and rodata are shared, so they take no frame that is lent.
        let free = self.free();
        self.spare = self.to_share(n);
        let r = self.run(n, |w| {
            w.procs.create(c);
            w.procs.switch(n);
            let r = result(|| w.procs.fork(n, c))
                .and_then(|()| w.procs.share(n, c, w.count).map_err(|s| Stop::Assert(format!("oracle: {s}"))));
            if r.is_err() {
                w.procs.remove(c);
            }
            r
        });
        self.spare = 0;
        if r.is_ok() {
            FORKS.fetch_add((self.procs.space_mut(c).len() > free) as usize, Relaxed);
        }
        r
    }

    /// The harness's own: r9 has no `end`.
    fn end(&mut self, n: u64) -> Answer<()> {
        self.of(n, |w, n| {
            w.procs.remove(n);
            Ok(())
        })
    }

    fn range(&mut self, n: u64, addr: u64, len: u64, write: bool) -> Answer<Result<(), Bad>> {
        let access = if write { Access::Write } else { Access::Read };
        let yes = self.of(n, |_, _| rust(|| inside::user_range_ok::<Machine>(addr as usize, len as usize, access)))?;
        Ok(yes.then_some(()).ok_or(None))
    }

    fn from(&mut self, n: u64, addr: u64, dst: &mut [u8]) -> Answer<()> {
        self.of(n, |_, _| rust(|| uaccess::copy_from_user::<Machine>(dst, addr as usize)))
    }

    fn to(&mut self, n: u64, addr: u64, src: &[u8]) -> Answer<()> {
        self.of(n, |_, _| rust(|| uaccess::copy_to_user::<Machine>(addr as usize, src)))
    }

    fn string(&mut self, n: u64, addr: u64, dst: &mut [u8]) -> Answer<Result<usize, Bad>> {
        let length = self.of(n, |_, _| rust(|| inside::try_copy_str_from_user::<Machine>(dst, addr as usize)))?;
        Ok(length.ok_or(None))
    }

    fn rule(&self, bss: Option<[u64; 2]>, free: u64, addr: u64) -> Answer<(u64, [u64; 2])> {
        rule::rule(bss, free, addr)
    }

    fn name(name: &[u8]) -> Answer<[u8; 28]> {
        kstrcpy(name)
    }
}
