//! What calls are made of: the loops over frames and book, the check of the book by itself, and `parse`.
use crate::clock::{SHORT_ROUNDS, Time, repeated, short, times};
use crate::region::{PAGE, Region};
use crate::{calls, image, ours, rust};
use holthrimi::FRAME_WORDS;
use std::cell::RefCell;
use std::hint::black_box;

fn head(title: &str, other: &str) {
    println!("\n{title:<40} {:>10} {other:>10} {:>7}   noise % of both", "ours ns", "ratio");
}

/// A line of ours beside another's.
fn line(name: &str, ours: &mut dyn FnMut() -> f64, other: &mut dyn FnMut() -> f64) {
    let [a, b] = &times(&mut [ours, other])[..] else { unreachable!() };
    println!("{name:<40} {:>10.1} {:>10.1} {:>7.2}   {:.0} {:.0}", a.ns(), b.ns(), a.ratio(b), a.noise(), b.noise());
}

/// Zeroing and copying beside libc's.
pub fn loops() {
    head("loops", "libc ns");
    let (to, from) = (Region::new(1 << 20).bytes(), Region::new(1 << 20).bytes());
    for n in [PAGE, 16 * PAGE, 256 * PAGE] {
        let (d, s) = (RefCell::new(&mut to[..n]), &from[..n]);
        let d = || d.borrow_mut();
        line(&format!("zero {n}"), &mut || repeated(|| ours::zero(black_box(*d()))), &mut || {
            repeated(|| black_box(&mut **d()).fill(0))
        });
        line(&format!("copy {n}"), &mut || repeated(|| ours::copy(black_box(*d()), s)), &mut || {
            repeated(|| black_box(&mut **d()).copy_from_slice(s))
        });
    }
}

/// Books, each with what it is called: a small one, then four of 1,024 frames. All are full but for the last, which has 104 frames free.
fn books() -> [(&'static str, ours::World); 5] {
    let book = |frames, nproc, image: &[u8]| {
        let mut w = ours::world(&Region::new(frames * PAGE), frames);
        (1..=nproc).for_each(|n| calls::start_ours(&mut w, n, image));
        w
    };
    let sixteen = || book(1_024, 16, &image::pages(20, 10, 30, 0));
    let mixed = sixteen();
    mix(mixed.book);
    let mut family = book(1_024, 1, &image::pages(100, 20, 96, 0));
    (2..=8).for_each(|child| family.fork(1, child).unwrap());
    let books = [
        ("64 frames, 1 process", book(64, 1, &image::pages(20, 10, 30, 0))),
        ("1 process of 1,024 pages", book(1_024, 1, &image::pages(400, 100, 520, 0))),
        ("16 of 64 pages, in order", sixteen()),
        ("16 of 64 pages, mixed", mixed),
        ("8 of 220 pages, 120 shared", family),
    ];
    assert!(books.iter().map(|(_, w)| ours::free(w.book)).eq([0, 0, 0, 0, 104]));
    books
}

/// The frames of a book, each with its words, in an order that looks like chance and is always the same.
fn mix(book: &mut [u64]) {
    let mut x = 1u64;
    for k in (1..book.len() / FRAME_WORDS).rev() {
        x = x.wrapping_mul(6_364_136_223_846_793_005).wrapping_add(1_442_695_040_888_963_407);
        let j = (x >> 33) as usize % (k + 1);
        (0..FRAME_WORDS).for_each(|i| book.swap(FRAME_WORDS * k + i, FRAME_WORDS * j + i));
    }
}

/// The check of the book, beside a loop of C that reads each of its words; and the count of its free frames, beside one that reads the frames'
/// counts. Times are the least of short rounds, the ratio is theirs; behind it is the median of the rounds' ratios.
pub fn check() {
    println!("\nleast of {SHORT_ROUNDS} rounds in turn");
    println!("{:<40} {:>10} {:>10} {:>10} {:>7}   median ratio", "book", "ours ns", "ns a word", "read ns", "ratio");
    let show = |name: &str, words: usize, [a, b]: [Time; 2]| {
        print!("{name:<40} {:>10.1} {:>10.2}", a.least(), a.least() / words as f64);
        println!(" {:>10.1} {:>7.2}   {:.2}", b.least(), a.least() / b.least(), a.ratio(&b));
    };
    let books = books();
    for (name, w) in &books {
        let (book, procs) = (&*w.book, &*w.procs);
        assert!(ours::sound(book, procs), "bench: {name}: not sound");
        let t = short(|| ours::sound(black_box(book), black_box(procs)), || ours::words_read(black_box(book)));
        show(&format!("check, {name}"), book.len(), t);
    }
    for (_, w) in &books[..2] {
        let (book, frames) = (&*w.book, w.book.len() / FRAME_WORDS);
        let t = short(|| ours::free(black_box(book)), || ours::counts_read(black_box(book)));
        show(&format!("free count, {frames} frames"), frames, t);
    }
}

pub fn parse() {
    head("parse", "Rust ns");
    for (name, image) in
        [("184 bytes", image::example()), ("500 headers", image::headers(500)), ("65,535 headers", image::headers(65_535))]
    {
        assert!(ours::parse(&image) == 0 && rust::parse(&image));
        line(name, &mut || repeated(|| ours::parse(black_box(&image))), &mut || repeated(|| rust::parse(black_box(&image))));
    }
}
