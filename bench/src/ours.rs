//! Our side: frames, book and records lent to the proved library's calls (the crate holthrimi), and the loops of libbench_loops.a.
use crate::region::Region;
use holthrimi::{Lent, PAGE, Procs, Setup, book_words};

unsafe extern "C" {
    fn measured_zero(d: *mut u8, n: usize);
    fn measured_copy(d: *mut u8, n: usize, s: *const u8, m: usize);
    fn measured_free(book: *const u64, n: usize) -> usize;
    fn measured_sound(book: *const u64, n: usize, procs: Procs) -> bool;
    fn measured_parse(image: *const u8, n: usize) -> u64;
    fn read_words(book: *const u64, n: usize) -> u64;
    fn read_counts(book: *const u64, n: usize) -> u64;
}

pub fn zero(d: &mut [u8]) {
    // SAFETY: the proved functions touch the slices' bytes alone.
    unsafe { measured_zero(d.as_mut_ptr(), d.len()) }
}

pub fn copy(d: &mut [u8], s: &[u8]) {
    // SAFETY: as above.
    unsafe { measured_copy(d.as_mut_ptr(), d.len(), s.as_ptr(), s.len()) }
}

pub fn free(book: &[u64]) -> usize {
    // SAFETY: as above.
    unsafe { measured_free(book.as_ptr(), book.len()) }
}

pub fn parse(image: &[u8]) -> u64 {
    // SAFETY: as above.
    unsafe { measured_parse(image.as_ptr(), image.len()) }
}

/// The check of the book by itself.
pub fn sound(book: &[u64], procs: &Procs) -> bool {
    // SAFETY: as above.
    unsafe { measured_sound(book.as_ptr(), book.len(), *procs) }
}

/// The loops of read.c.
pub fn words_read(book: &[u64]) -> u64 {
    // SAFETY: they read the slice's words alone.
    unsafe { read_words(book.as_ptr(), book.len()) }
}

pub fn counts_read(book: &[u64]) -> u64 {
    // SAFETY: as above.
    unsafe { read_counts(book.as_ptr(), book.len()) }
}

/// What is lent, for as long as the driver runs.
pub type World = Lent<'static>;

pub fn world(region: &Region, frames: usize) -> World {
    let bytes = &mut region.bytes()[..frames * PAGE];
    bytes.fill(0);
    Lent { setup: Setup::DEPOSIT, frames: bytes, book: vec![0; book_words(frames)].leak(), procs: Box::leak(Box::default()) }
}

/// What a call finds, for the check that it begins with: of the frames that looks at the length alone.
pub fn found(w: &World) -> World {
    let frames = vec![0; w.frames.len()].leak();
    Lent { setup: w.setup, frames, book: w.book.to_vec().leak(), procs: Box::leak(Box::new(*w.procs)) }
}

/// Arguments as bytes and lengths.
pub struct Args {
    pub bytes: Vec<u8>,
    pub lengths: Vec<u64>,
}

impl Args {
    pub fn new(args: &[&[u8]]) -> Self {
        Args { bytes: args.concat(), lengths: args.iter().map(|a| a.len() as u64).collect() }
    }
}
