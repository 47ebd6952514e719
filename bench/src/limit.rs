//! The limit of a call: `memcpy` and `memset` of the bytes that it moves.
use crate::clock::{repeated, timed};
use crate::region::PAGE;
use std::hint::black_box;

/// What bytes a call moves, for its limit: `memcpy` and `memset` of as many.
pub enum Moves<'a> {
    /// None.
    No,
    /// The pages of an image, or those of a parent below the top frame, into the frames below, as they are taken; then zeroed pages.
    Image(&'a [u8], usize),
    Fork(usize),
    /// So many bytes from and to one place.
    Bytes(usize),
}

/// A page at a time, from frame `top` down.
fn move_pages(frames: &mut [u8], top: usize, from: &[u8], zeroed: usize) {
    let copied = from.len() / PAGE;
    for k in 0..copied + zeroed {
        let page = black_box(&mut frames[(top - 1 - k) * PAGE..][..PAGE]);
        if k < copied { page.copy_from_slice(&from[k * PAGE..][..PAGE]) } else { page.fill(0) }
    }
}

impl Moves<'_> {
    /// The time that moving them takes, or no number.
    pub fn time(&self, frames: &mut [u8], buffer: &mut [u8]) -> f64 {
        let top = frames.len() / PAGE;
        match *self {
            Moves::No => f64::NAN,
            Moves::Image(image, zeroed) => timed(|| move_pages(frames, top, image, zeroed)),
            Moves::Fork(pages) => {
                let (to, from) = frames.split_at_mut((top - pages) * PAGE);
                timed(|| move_pages(to, top - pages, &from[..pages * PAGE], 0))
            }
            Moves::Bytes(n) => repeated(|| black_box(&mut buffer[..n]).copy_from_slice(&frames[..n])),
        }
    }
}
