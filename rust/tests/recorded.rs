// The recorded scripts of tests/replay, whose answers are the published Rust's with the bad addresses of tests/compare/model.py and its
// 30 for images that number 28 refuses, or under other machine numbers or another flag table than the deposit machine's, and of Plan 9's a.outs,
// the model's, run through the library: every answer, and by `sum` every record, book word and frame byte. How a script is read and
// answered is the oracle's code; the calls here are the library's.

#[allow(dead_code)] // An answer `assert` is the Rust's alone, and so is a list that the harness holds to a record.
#[path = "../../tests/oracle/src/script.rs"]
mod script;
#[path = "../../tests/oracle/src/text.rs"]
mod text;

use holthrimi::{Checked, Form, Lent, Procs, Refusal, Setup, UserRegs, UserSegment, VirtRange, PAGE};
use script::{Answer, Bad, Calls, Record, Regs, Stop, WORDS};
use std::fs;

struct World {
    setup: Setup,
    frames: Vec<u8>,
    book: Vec<u64>,
    procs: Procs,
    bytes: usize,
    words: usize,
}

impl World {
    fn lent(&mut self) -> Lent<'_> {
        Lent {
            setup: self.setup,
            frames: &mut self.frames[..self.bytes],
            book: &mut self.book[..self.words],
            procs: &mut self.procs,
        }
    }
}

fn told<T>(r: holthrimi::Result<T>) -> Answer<T> {
    r.map_err(|e| match e {
        Refusal::Refused(number) => Stop::Refused(number),
        Refusal::Ended(number) => Stop::Ended(number),
        Refusal::RefusedAt { .. } => Stop::Refused(e.number()),
        Refusal::EndedAt { address } => Stop::EndedAt(address),
    })
}

fn regs(r: UserRegs) -> Regs {
    [r.pc, r.sp, r.argc, r.argv]
}

fn lengths(args: &[&[u8]]) -> Vec<u64> {
    args.iter().map(|a| a.len() as u64).collect()
}

impl Calls for World {
    fn new(count: usize, fill: u8) -> Self {
        let (bytes, words) = (count * PAGE, count * WORDS);
        World { setup: Setup::DEPOSIT, frames: vec![fill; bytes], book: vec![0; words], procs: Procs::default(), bytes, words }
    }
    fn frames(&self) -> &[u8] {
        &self.frames
    }
    fn book(&mut self) -> &mut [u64] {
        &mut self.book
    }
    fn record(&self, n: usize) -> Record {
        let p = &self.procs.all[n - 1];
        let segments = p.segments.map(|s| [s.range.start, s.range.end, s.perm]);
        Record { segments, name: p.text, bss: [p.bss.start, p.bss.end] }
    }
    fn lend(&mut self, bytes: usize, words: usize) {
        (self.bytes, self.words) = (bytes, words);
    }
    fn numbers(&mut self, [utzero, ustktop, ustksize, uaddrtop]: [u64; 4]) -> Option<Answer<()>> {
        self.setup = Setup { utzero, ustktop, ustksize, uaddrtop, flags: self.setup.flags };
        Some(Ok(()))
    }
    fn numbers_of(&mut self, lines: &[u8]) -> Option<Answer<()>> {
        Some(told(Setup::read(lines)).map(|setup| self.setup = Setup { flags: self.setup.flags, ..setup }))
    }
    fn flags(&mut self, table: [u8; 8]) -> Option<Answer<()>> {
        self.setup.flags = table;
        Some(Ok(()))
    }
    fn flags_of(&mut self, lines: &[u8]) -> Option<Answer<()>> {
        Some(told(holthrimi::read_flags(lines)).map(|table| self.setup.flags = table))
    }
    fn start(&mut self, n: u64, name: &[u8], image: &[u8], args: &[&[u8]]) -> Answer<Regs> {
        told(self.lent().start(n, Form::Elf, image, name, &args.concat(), &lengths(args))).map(regs)
    }
    fn replace(&mut self, n: u64, name: &[u8], image: &[u8], argv: u64) -> Answer<Regs> {
        told(self.lent().replace(n, Form::Elf, image, name, argv)).map(regs)
    }
    fn start_aout(&mut self, n: u64, name: &[u8], magic: u32, image: &[u8], args: &[&[u8]]) -> Option<Answer<Regs>> {
        Some(told(self.lent().start(n, Form::Aout(magic), image, name, &args.concat(), &lengths(args))).map(regs))
    }
    fn replace_aout(&mut self, n: u64, name: &[u8], magic: u32, image: &[u8], argv: u64) -> Option<Answer<Regs>> {
        Some(told(self.lent().replace(n, Form::Aout(magic), image, name, argv)).map(regs))
    }
    fn push(&mut self, n: u64, pc: u64, top: u64, args: &[&[u8]]) -> Answer<Regs> {
        told(self.lent().push(n, pc, top, &args.concat(), &lengths(args))).map(regs)
    }
    fn brk(&mut self, n: u64, addr: u64) -> Answer<u64> {
        told(self.lent().brk(n, addr))
    }
    fn fork(&mut self, parent: u64, child: u64, list: Option<&[[u64; 3]]>) -> Answer<()> {
        let Some(list) = list else { return told(self.lent().fork(parent, child)) };
        let segment = |&[start, end, perm]: &[u64; 3]| UserSegment { range: VirtRange { start, end }, perm };
        told(self.lent().fork_list(parent, child, &list.iter().map(segment).collect::<Vec<_>>()))
    }
    fn end(&mut self, n: u64) -> Answer<()> {
        told(self.lent().end(n))
    }
    fn range(&mut self, n: u64, addr: u64, len: u64, write: bool) -> Answer<Result<(), Bad>> {
        told(self.lent().user_range_ok(n, addr, len, write)).map(|a| match a {
            Checked::Fine => Ok(()),
            Checked::Bad { address } => Err(Some(address)),
        })
    }
    fn from(&mut self, n: u64, addr: u64, dst: &mut [u8]) -> Answer<()> {
        told(self.lent().copy_from_user(n, dst, addr))
    }
    fn to(&mut self, n: u64, addr: u64, src: &[u8]) -> Answer<()> {
        told(self.lent().copy_to_user(n, addr, src))
    }
    fn string(&mut self, n: u64, addr: u64, dst: &mut [u8]) -> Answer<Result<usize, Bad>> {
        match self.lent().try_copy_str_from_user(n, dst, addr) {
            Err(Refusal::RefusedAt { address }) => Ok(Err(Some(address))),
            r => told(r.map(Ok)),
        }
    }
    fn rule(&self, bss: Option<[u64; 2]>, free: u64, addr: u64) -> Answer<(u64, [u64; 2])> {
        let bss = bss.map(|[start, end]| VirtRange { start, end });
        told(holthrimi::ibrk(self.setup, bss, addr, free)).map(|(value, bss)| (value, [bss.start, bss.end]))
    }
    fn name(name: &[u8]) -> Answer<[u8; 28]> {
        Ok(holthrimi::kstrcpy(name))
    }
}

#[test]
fn recorded() {
    // Scripts name files by their paths from the repository.
    std::env::set_current_dir("..").unwrap();
    let mut files: Vec<_> = fs::read_dir("tests/replay")
        .unwrap()
        .map(|f| f.unwrap().path())
        .filter(|p| p.extension().is_some_and(|e| e == "txt"))
        .collect();
    files.sort();
    let mut compared = 0;
    for file in files {
        let script = fs::read(&file).unwrap();
        let expected = fs::read_to_string(file.with_extension("out")).unwrap();
        let mut expected = expected.lines();
        let mut world = World::new(0, 0);
        for (i, line) in script.split(|b| *b == b'\n').enumerate() {
            let Some(answer) = script::answer(&mut world, line) else { continue };
            for part in answer.lines() {
                assert_eq!(Some(part), expected.next(), "{}:{}: {:.80}", file.display(), i + 1, String::from_utf8_lossy(line));
            }
            compared += 1;
        }
        assert_eq!(expected.next(), None, "{}: more answers", file.display());
    }
    assert!(compared > 5000, "{compared}");
    println!("{compared} answers");
}
