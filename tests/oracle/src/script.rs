//! A script's lines and their answers, over anything that has the calls: the published Rust here, the library in
//! rust/tests/recorded.rs.
use crate::text::{bytes, crc, hex, number, Given, BAD, LINE_TOO_LARGE};
use std::fmt::Write;

/// Why a call has no value to answer with.
pub enum Stop {
    Refused(u64),
    Ended(u64),
    /// Ended with 35, with the bad address. The Rust names none, and its 35 is `Ended`.
    #[allow(dead_code)]
    EndedAt(u64),
    /// A panic of the Rust or the harness: outside what can be compared.
    Assert(String),
}

pub type Answer<T> = Result<T, Stop>;

/// A bad address; None where it isn't named.
pub type Bad = Option<u64>;

/// pc, sp, argc, argv.
pub type Regs = [u64; 4];

/// A process's record; no process's is all zero.
#[derive(Clone, Copy, Default, PartialEq)]
pub struct Record {
    pub segments: [[u64; 3]; 16],
    pub name: [u8; 28],
    pub bss: [u64; 2],
}

/// Frames, book and records, and the calls over them.
pub trait Calls: Sized {
    fn new(frames: usize, fill: u8) -> Self;
    fn frames(&self) -> &[u8];
    fn book(&mut self) -> &mut [u64];
    fn record(&self, n: usize) -> Record;
    /// Lend only so much of frames and book, which have as much.
    fn lend(&mut self, bytes: usize, words: usize);
    /// Hands over a set of the machine's numbers: UTZERO, USTKTOP, USTKSIZE and UADDRTOP. None where the deposit machine's are fixed.
    fn numbers(&mut self, _set: [u64; 4]) -> Option<Answer<()>> {
        None
    }
    /// As `numbers`, of the lines of a file.
    fn numbers_of(&mut self, _lines: &[u8]) -> Option<Answer<()>> {
        None
    }
    /// Hands over a flag table, a code for each value of the low three flag bits. None where the built-in one is fixed.
    fn flags(&mut self, _table: [u8; 8]) -> Option<Answer<()>> {
        None
    }
    /// As `flags`, of the lines of a file.
    fn flags_of(&mut self, _lines: &[u8]) -> Option<Answer<()>> {
        None
    }
    fn start(&mut self, n: u64, name: &[u8], image: &[u8], args: &[&[u8]]) -> Answer<Regs>;
    fn replace(&mut self, n: u64, name: &[u8], image: &[u8], argv: u64) -> Answer<Regs>;
    /// As `start`, of a Plan 9 a.out that is to have this magic. None where images are ELF alone.
    fn start_aout(&mut self, _n: u64, _name: &[u8], _magic: u32, _image: &[u8], _args: &[&[u8]]) -> Option<Answer<Regs>> {
        None
    }
    /// As `replace`, of such an a.out.
    fn replace_aout(&mut self, _n: u64, _name: &[u8], _magic: u32, _image: &[u8], _argv: u64) -> Option<Answer<Regs>> {
        None
    }
    fn push(&mut self, n: u64, pc: u64, top: u64, args: &[&[u8]]) -> Answer<Regs>;
    fn brk(&mut self, n: u64, addr: u64) -> Answer<u64>;
    /// `list` is the lent list of segments, or None for the record's own.
    fn fork(&mut self, parent: u64, child: u64, list: Option<&[[u64; 3]]>) -> Answer<()>;
    fn end(&mut self, n: u64) -> Answer<()>;
    /// Yes, or no with the bad address.
    fn range(&mut self, n: u64, addr: u64, len: u64, write: bool) -> Answer<Result<(), Bad>>;
    fn from(&mut self, n: u64, addr: u64, dst: &mut [u8]) -> Answer<()>;
    fn to(&mut self, n: u64, addr: u64, src: &[u8]) -> Answer<()>;
    /// The length, or the bad address.
    fn string(&mut self, n: u64, addr: u64, dst: &mut [u8]) -> Answer<Result<usize, Bad>>;
    /// The break's rule by itself: the answer, and the bss after it.
    fn rule(&self, bss: Option<[u64; 2]>, free: u64, addr: u64) -> Answer<(u64, [u64; 2])>;
    /// The name copy by itself.
    fn name(name: &[u8]) -> Answer<[u8; 28]>;
}

/// Number 3.
pub fn within(n: u64) -> Answer<usize> {
    match n {
        1..=16 => Ok(n as usize),
        _ => Err(Stop::Refused(3)),
    }
}

/// Whether a lent list is the record's segments, which go up to its first unused place.
pub fn same_list(list: &[[u64; 3]], r: &Record) -> bool {
    let used = r.segments.iter().take_while(|s| **s != [0; 3]).count();
    list == &r.segments[..used]
}

/// What kinds of segments are called, by their permissions.
pub const KINDS: [&str; 4] = ["", "text", "rodata", "data"];
const PAGE: u64 = 4_096;
/// A frame's words in the book: its places 1 to 16, then the count of its holders.
pub const WORDS: usize = 17;
/// The most frames there are: one more than a book may have.
const FRAMES: u64 = 1_025;
/// The longest line, and the longest buffer of `from` and `string`.
const MAX: usize = 65_536;
/// What a buffer holds at first.
const BLANK: u8 = 238;
/// How the word before an a.out begins, which says its form.
const AOUT: &[u8] = b"aout=";

/// The answer to a line; None where there is none.
pub fn answer(w: &mut impl Calls, line: &[u8]) -> Option<String> {
    if line.is_empty() || line[0] == b'#' {
        return None;
    }
    let words: Vec<&[u8]> = line.split(|&b| b == b' ').collect();
    let known = if line.len() <= MAX { call(w, words[0], &words[1..]) } else { Err(LINE_TOO_LARGE) };
    Some(known.unwrap_or_else(str::to_string))
}

fn show<T>(a: Answer<T>, f: impl FnOnce(T) -> String) -> String {
    match a {
        Ok(v) => format!("ok {}", f(v)).trim_end().into(),
        Err(Stop::Refused(n)) => format!("refused {n}"),
        Err(Stop::Ended(n)) => format!("ended {n}"),
        Err(Stop::EndedAt(bad)) => format!("ended 35 {bad}"),
        Err(Stop::Assert(s)) => format!("assert {}", s.replace('\n', " ")),
    }
}

/// A bad address as a word behind others.
fn named(bad: Bad) -> String {
    bad.map_or_else(String::new, |a| format!(" {a}"))
}

fn none(_: ()) -> String {
    String::new()
}

fn regs([pc, sp, argc, argv]: Regs) -> String {
    format!("pc={pc} sp={sp} argc={argc} argv={argv}")
}

/// A buffer's length.
fn length(word: &[u8]) -> Given<usize> {
    at_most(number(word)?, MAX as u64).map(|n| n as usize)
}

/// A number, if it is at most so many.
fn at_most(n: u64, most: u64) -> Given<u64> {
    if n <= most {
        Ok(n)
    } else {
        Err(BAD)
    }
}

/// The magic of an a.out, from the word before it.
fn magic(form: &[u8]) -> Given<u32> {
    at_most(number(&form[AOUT.len()..])?, u32::MAX as u64).map(|n| n as u32)
}

/// The answer to a call with its words, or to words that are no call.
fn call<W: Calls>(w: &mut W, name: &[u8], words: &[&[u8]]) -> Given<String> {
    let many = |from: &[&[u8]]| from.iter().map(|b| bytes(b)).collect::<Given<Vec<_>>>();
    Ok(match (name, words) {
        (b"frames", [n, fill @ ..]) => {
            let n = at_most(number(n)?, FRAMES)?;
            let fill = match fill {
                [] => 0,
                [f] => at_most(number(f)?, 255)? as u8,
                _ => return Err(BAD),
            };
            *w = W::new(n as usize, fill);
            "ok".into()
        }
        (b"numbers", [u, t, s, a]) => show(w.numbers([number(u)?, number(t)?, number(s)?, number(a)?]).ok_or(BAD)?, none),
        (b"numbers", [b]) => show(w.numbers_of(&bytes(b)?).ok_or(BAD)?, none),
        (b"flags", codes) if codes.len() == 8 => {
            let mut table = [0; 8];
            for (row, code) in table.iter_mut().zip(codes) {
                *row = at_most(number(code)?, 255)? as u8;
            }
            show(w.flags(table).ok_or(BAD)?, none)
        }
        (b"flags", [b]) => show(w.flags_of(&bytes(b)?).ok_or(BAD)?, none),
        (b"lend", [b, words]) => {
            let (b, words) = (number(b)?, number(words)?);
            if b > w.frames().len() as u64 || words > w.book().len() as u64 {
                return Err(BAD);
            }
            w.lend(b as usize, words as usize);
            "ok".into()
        }
        (b"word", [i, word]) => {
            let (i, word) = (number(i)?, number(word)?);
            *w.book().get_mut(i as usize).ok_or(BAD)? = word;
            "ok".into()
        }
        (b"start", [n, name, form, image, args @ ..]) if form.starts_with(AOUT) => {
            // The image comes last.
            let (n, name, magic, args, image) = (number(n)?, bytes(name)?, magic(form)?, many(args)?, bytes(image)?);
            let args: Vec<&[u8]> = args.iter().map(Vec::as_slice).collect();
            show(w.start_aout(n, &name, magic, &image, &args).ok_or(BAD)?, regs)
        }
        (b"start", [n, name, image, args @ ..]) if !image.starts_with(AOUT) => {
            let (n, name, args, image) = (number(n)?, bytes(name)?, many(args)?, bytes(image)?);
            let args: Vec<&[u8]> = args.iter().map(Vec::as_slice).collect();
            show(w.start(n, &name, &image, &args), regs)
        }
        (b"replace", [n, name, form, image, argv]) if form.starts_with(AOUT) => {
            let (n, name, magic, image, argv) = (number(n)?, bytes(name)?, magic(form)?, bytes(image)?, number(argv)?);
            show(w.replace_aout(n, &name, magic, &image, argv).ok_or(BAD)?, regs)
        }
        (b"replace", [n, name, image, argv]) if !image.starts_with(AOUT) => {
            let (n, name, image, argv) = (number(n)?, bytes(name)?, bytes(image)?, number(argv)?);
            show(w.replace(n, &name, &image, argv), regs)
        }
        (b"push", [n, pc, top, args @ ..]) => {
            let (n, pc, top, args) = (number(n)?, number(pc)?, number(top)?, many(args)?);
            let args: Vec<&[u8]> = args.iter().map(Vec::as_slice).collect();
            show(w.push(n, pc, top, &args), regs)
        }
        (b"break", [n, addr]) => show(w.brk(number(n)?, number(addr)?), |v| v.to_string()),
        (b"fork", [parent, child, list @ ..]) => {
            let (parent, child) = (number(parent)?, number(child)?);
            if list.len() % 3 != 0 {
                return Err(BAD);
            }
            let triple = |t: &[&[u8]]| Ok([number(t[0])?, number(t[1])?, number(t[2])?]);
            let list = list.chunks(3).map(triple).collect::<Given<Vec<_>>>()?;
            show(w.fork(parent, child, (!list.is_empty()).then_some(&list[..])), none)
        }
        (b"end", [n]) => show(w.end(number(n)?), none),
        (b"range", [n, addr, len, access]) => {
            let write = match *access {
                b"r" => false,
                b"w" => true,
                _ => return Err(BAD),
            };
            show(w.range(number(n)?, number(addr)?, number(len)?, write), |r| match r {
                Ok(()) => "yes".into(),
                Err(bad) => format!("no{}", named(bad)),
            })
        }
        (b"from", [n, addr, len]) => {
            let mut b = vec![BLANK; length(len)?];
            let a = w.from(number(n)?, number(addr)?, &mut b);
            show(a, |()| hex(&b))
        }
        (b"to", [n, addr, b]) => show(w.to(number(n)?, number(addr)?, &bytes(b)?), none),
        (b"string", [n, addr, len]) => {
            let mut b = vec![BLANK; length(len)?];
            match w.string(number(n)?, number(addr)?, &mut b) {
                Ok(Err(bad)) => format!("refused 35{} {}", named(bad), hex(&b)),
                a => show(a, |n| format!("{} {}", n.unwrap(), hex(&b))),
            }
        }
        (b"rule", [start, end, free, addr]) => {
            let bss = match (*start, *end) {
                (b"none", b"none") => None,
                (s, e) => Some([number(s)?, number(e)?]),
            };
            show(w.rule(bss, number(free)?, number(addr)?), |(v, [start, end])| format!("{v} {start} {end}"))
        }
        (b"name", [b]) => show(W::name(&bytes(b)?), |n| hex(&n)),
        (b"sum", []) => sum(w),
        (b"map", [n]) => map(w, number(n)?),
        _ => return Err(BAD),
    })
}

/// Sums of everything there is.
fn sum(w: &mut impl Calls) -> String {
    let words = |words: &[u64]| words.iter().flat_map(|v| v.to_le_bytes()).collect::<Vec<u8>>();
    let mut records = Vec::new();
    for n in 1..=16 {
        let r = w.record(n);
        records.extend(words(r.segments.as_flattened()));
        records.extend(r.name);
        records.extend(words(&r.bss));
    }
    format!("records={:08x} book={:08x} frames={:08x}", crc(&records), crc(&words(w.book())), crc(w.frames()))
}

/// What a process holds, for a person: its name, each segment and the bss, and each page with its frame and the frame's holders.
/// Every line after the first begins with a space.
fn map(w: &mut impl Calls, n: u64) -> String {
    let r = match within(n).map(|n| w.record(n)) {
        Ok(r) if r == Record::default() => return "refused 4".into(),
        Ok(r) => r,
        Err(stop) => return show(Err(stop), none),
    };
    let shown = r.name.iter().rposition(|b| *b != 0).map_or(0, |i| i + 1);
    let name: String = r.name[..shown].iter().map(|b| if b.is_ascii_graphic() { *b as char } else { '.' }).collect();
    let mut s = format!("process {n} {name}").trim_end().to_string();
    let mut pages = 0;
    let bss = [r.bss[0], r.bss[1], 0];
    for [start, end, perm] in r.segments.iter().filter(|s| **s != [0; 3]).chain([&bss]) {
        let kind = if *perm == 0 { "bss" } else { KINDS[*perm as usize] };
        write!(s, "\n  {kind} {start} {end} size {}", end - start).unwrap();
        for va in (start.next_multiple_of(PAGE)..*end).step_by(PAGE as usize) {
            let mut frames = w.book().chunks(WORDS).enumerate();
            let frame = frames.find(|(_, f)| f[n as usize - 1] / PAGE * PAGE == va && f[n as usize - 1] % PAGE / 16 == n);
            match frame {
                None => write!(s, "\n    page {va} frame none").unwrap(),
                Some((i, words)) => {
                    let places = (1..WORDS).zip(words).filter(|(_, w)| **w != 0);
                    let holders: String = places.map(|(n, _)| format!(" {n}")).collect();
                    write!(s, "\n    page {va} frame {i} holders{holders}").unwrap();
                }
            }
            pages += 1;
        }
    }
    write!(s, "\n  pages {pages}").unwrap();
    s
}
