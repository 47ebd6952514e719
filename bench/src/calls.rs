//! The calls, each on both sides.
use crate::clock::{repeated, timed};
use crate::ours::{self, Args};
use crate::region::{PAGE, Region};
use crate::rust;
use holthrimi::{Form, Setup};
use std::hint::black_box;

const NAME: &[u8] = b"reader";
const TWO: [&[u8]; 2] = [b"lex", b"mot"];

/// Where the bss of the example, image::example, ends.
pub const EXAMPLE_END: usize = 77_824;

/// Starts process n on our side.
pub fn start_ours(w: &mut ours::World, n: u64, image: &[u8]) {
    let a = Args::new(&TWO);
    w.start(n, Form::Elf, image, NAME, &a.bytes, &a.lengths).unwrap();
}

/// Starts process n on the Rust's side, so that it is the current one with its pages mapped.
pub fn start_rust(w: &mut rust::World, n: usize, image: &[u8]) {
    w.start_entered(n, image, &TWO);
}

/// Memory for so many frames, which stays until the end.
pub fn region(frames: usize) -> &'static Region {
    Box::leak(Box::new(Region::new(frames * PAGE)))
}

/// Both sides' states must be the same.
pub fn same(name: &str, ours: &ours::World, rust: &rust::World) {
    assert!(*ours.book == *rust.book(), "bench: {name}: other books");
    assert!(*ours.frames == *rust.bytes(), "bench: {name}: other bytes");
}

/// A call of process n on both sides, each with what it needs before and after it outside the clock. It leaves things so that it can be
/// made again.
pub struct Call<'a> {
    pub name: String,
    /// The process whose pages the Rust needs mapped; a start maps its own.
    pub enters: Option<usize>,
    pub ours: Box<dyn FnMut(&mut ours::World) -> f64 + 'a>,
    pub rust: Box<dyn FnMut(&mut rust::World) -> f64 + 'a>,
}

impl<'a> Call<'a> {
    fn new(
        name: String,
        enters: Option<usize>,
        ours: impl FnMut(&mut ours::World) -> f64 + 'a,
        rust: impl FnMut(&mut rust::World) -> f64 + 'a,
    ) -> Self {
        Call { name, enters, ours: Box::new(ours), rust: Box::new(rust) }
    }
}

/// Starts process n, which then ends.
pub fn start<'a>(name: &str, n: usize, image: &'a [u8]) -> Call<'a> {
    let args = Args::new(&TWO);
    let mut known = false;
    Call::new(
        name.into(),
        None,
        move |w| {
            let t = timed(|| w.start(n as u64, Form::Elf, image, NAME, &args.bytes, &args.lengths).unwrap());
            w.end(n as u64).unwrap();
            t
        },
        move |w| {
            // The first time tells which frames the stack takes.
            if !std::mem::replace(&mut known, true) {
                w.start_entered(n, image, &TWO);
                w.remove(n);
            }
            w.create(n);
            let t = timed(|| rust::start(image, &TWO));
            w.remove(n);
            t
        },
    )
}

/// Ends process n, which then starts again. The Rust's pexit isn't published: this is what frees a process's pages in replace_pmmu.
pub fn end<'a>(name: &str, n: usize, image: &'a [u8]) -> Call<'a> {
    let args = Args::new(&TWO);
    Call::new(
        name.into(),
        Some(n),
        move |w| {
            let t = timed(|| w.end(n as u64).unwrap());
            w.start(n as u64, Form::Elf, image, NAME, &args.bytes, &args.lengths).unwrap();
            t
        },
        move |w| {
            let t = timed(|| w.remove(n));
            w.create(n);
            rust::start(image, &TWO);
            t
        },
    )
}

/// Replaces process n, with two arguments that stand at `at`.
pub fn replace<'a>(name: &str, n: usize, image: &'a [u8], at: usize) -> Call<'a> {
    let mut argv = [at as u64 + 24, at as u64 + 28, 0].map(u64::to_le_bytes).concat();
    argv.extend(b"lex\0mot\0");
    let same = argv.clone();
    let mut known = false;
    Call::new(
        name.into(),
        Some(n),
        move |w| {
            w.copy_to_user(n as u64, at as u64, &argv).unwrap();
            timed(|| w.replace(n as u64, Form::Elf, image, NAME, at as u64).unwrap())
        },
        move |w| {
            // The first time tells which frames the image takes from then on.
            if !std::mem::replace(&mut known, true) {
                rust::to(at, &same);
                rust::replace(image, at);
                w.enter(n);
            }
            rust::to(at, &same);
            timed(|| rust::replace(image, at))
        },
    )
}

/// Process n forks, and the child ends. The Rust copies every page; ours shares text and rodata.
pub fn fork<'a>(name: &str, n: usize, child: usize) -> Call<'a> {
    Call::new(
        name.into(),
        Some(n),
        move |w| {
            let t = timed(|| w.fork(n as u64, child as u64).unwrap());
            w.end(child as u64).unwrap();
            t
        },
        move |w| {
            let t = w.fork(n, child);
            w.end(child);
            t
        },
    )
}

/// The same with the list of its segments lent, which r9's copy_segments always takes.
pub fn fork_list<'a>(name: &str, n: usize, child: usize) -> Call<'a> {
    let mut call = fork(name, n, child);
    call.ours = Box::new(move |w| {
        let record = w.procs.all[n - 1];
        let t = timed(|| w.fork_list(n as u64, child as u64, record.used()).unwrap());
        w.end(child as u64).unwrap();
        t
    });
    call
}

/// The break of process n moves from `from` to `to`, `pages` pages away, and back.
pub fn brk<'a>(n: usize, pages: usize, from: usize, to: usize) -> Call<'a> {
    let sign = if from < to { '+' } else { '-' };
    Call::new(
        format!("break {sign} {pages} pages"),
        Some(n),
        move |w| {
            w.brk(n as u64, from as u64).unwrap();
            let t = timed(|| w.brk(n as u64, to as u64).unwrap());
            w.brk(n as u64, from.min(to) as u64).unwrap();
            t
        },
        move |w| {
            w.brk(n, from);
            let t = timed(|| w.brk(n, to));
            w.brk(n, from.min(to));
            t
        },
    )
}

pub fn brk_none<'a>(n: usize, end: usize) -> Call<'a> {
    Call::new(
        "break, no change".into(),
        Some(n),
        move |w| repeated(|| w.brk(n as u64, black_box(end) as u64).unwrap()),
        move |w| repeated(|| w.brk(n, black_box(end))),
    )
}

pub fn from<'a>(n: usize, at: usize, size: usize) -> Call<'a> {
    let (mut a, mut b) = (vec![7u8; size], vec![8u8; size]);
    Call::new(
        format!("copy_from_user, {size} bytes"),
        Some(n),
        move |w| repeated(|| w.copy_from_user(n as u64, black_box(&mut a), at as u64).unwrap()),
        move |_| repeated(|| rust::from(black_box(&mut b), at)),
    )
}

pub fn to<'a>(n: usize, at: usize, size: usize) -> Call<'a> {
    let (a, b) = (vec![7u8; size], vec![7u8; size]);
    Call::new(
        format!("copy_to_user, {size} bytes"),
        Some(n),
        move |w| repeated(|| w.copy_to_user(n as u64, at as u64, black_box(&a)).unwrap()),
        move |_| repeated(|| rust::to(at, black_box(&b))),
    )
}

/// A string that fills its buffer.
pub fn string<'a>(n: usize, at: usize, size: usize) -> Call<'a> {
    let (mut a, mut b) = (vec![0u8; size], vec![0u8; size]);
    Call::new(
        format!("string copy, {size} bytes"),
        Some(n),
        move |w| {
            let t = repeated(|| w.try_copy_str_from_user(n as u64, black_box(&mut a), at as u64).unwrap());
            assert!(!a.contains(&0));
            t
        },
        move |_| {
            let t = repeated(|| rust::string(black_box(&mut b), at));
            assert!(!b.contains(&0));
            t
        },
    )
}

pub fn range<'a>(n: usize, at: usize, size: usize) -> Call<'a> {
    Call::new(
        format!("user_range_ok, {size} bytes"),
        Some(n),
        move |w| repeated(|| w.user_range_ok(n as u64, at as u64, black_box(size) as u64, true).unwrap()),
        move |_| repeated(|| rust::range(at, black_box(size), true)),
    )
}

pub fn push<'a>(n: usize, count: usize) -> Call<'a> {
    let list = vec![&b""[..]; count];
    let args = Args::new(&list);
    Call::new(
        format!("push, {count} empty arguments"),
        Some(n),
        move |w| {
            repeated(|| w.push(n as u64, 0, Setup::DEPOSIT.ustktop, black_box(&args.bytes), black_box(&args.lengths)).unwrap())
        },
        move |_| repeated(|| rust::push(0, Setup::DEPOSIT.ustktop as usize, black_box(&list))),
    )
}
