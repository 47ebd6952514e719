// What the tests lend to calls, and how they look at it.
#![allow(dead_code)] // Not every test looks at all of it.

use holthrimi::{Checked, Form, Lent, Procs, Refusal, Setup, FRAME_WORDS, PAGE};

/// The 184-byte image of tests/images.
pub const IMAGE: &[u8] = include_bytes!("../../../tests/images/example.img");

pub struct Memory {
    pub frames: Vec<u8>,
    pub book: Vec<u64>,
    pub procs: Procs,
}

impl Memory {
    pub fn new(frames: usize) -> Self {
        Memory { frames: vec![238; frames * PAGE], book: vec![0; frames * FRAME_WORDS], procs: Procs::default() }
    }

    pub fn lent(&mut self) -> Lent<'_> {
        Lent { setup: Setup::DEPOSIT, frames: &mut self.frames, book: &mut self.book, procs: &mut self.procs }
    }

    /// Process n's place in frame k.
    pub fn place(&mut self, k: usize, n: usize) -> &mut u64 {
        &mut self.book[FRAME_WORDS * k + n - 1]
    }

    /// How many mappings frame k has.
    pub fn count(&mut self, k: usize) -> &mut u64 {
        &mut self.book[FRAME_WORDS * k + FRAME_WORDS - 1]
    }

    pub fn free(&self) -> usize {
        self.book.chunks(FRAME_WORDS).filter(|f| f[FRAME_WORDS - 1] == 0).count()
    }

    /// Process 1, whose text is in the last frame.
    pub fn started(frames: usize) -> Self {
        let mut m = Memory::new(frames);
        m.lent().start(1, Form::Elf, IMAGE, b"/bin/lex", b"lexmot", &[3, 3]).unwrap();
        m
    }

    /// Process 1, and its child 16.
    pub fn forked(frames: usize) -> Self {
        let mut m = Memory::started(frames);
        m.lent().fork(1, 16).unwrap();
        m
    }

    /// A byte of a process, if it may read there.
    pub fn byte(&mut self, number: u64, addr: u64) -> Option<u8> {
        let mut lent = self.lent();
        let mut byte = [0];
        if let Checked::Bad { address } = lent.user_range_ok(number, addr, 1, false).unwrap() {
            assert_eq!(address, addr);
            return None;
        }
        lent.copy_from_user(number, &mut byte, addr).unwrap();
        Some(byte[0])
    }
}

pub fn refused<T: std::fmt::Debug + PartialEq>(r: holthrimi::Result<T>, n: u64) {
    assert_eq!(r, Err(Refusal::Refused(n)));
}

/// A range's no, at an address.
pub fn bad(address: u64) -> holthrimi::Result<Checked> {
    Ok(Checked::Bad { address })
}

/// 35 that ended the process, at an address.
pub fn ended_at<T: std::fmt::Debug + PartialEq>(r: holthrimi::Result<T>, address: u64) {
    assert_eq!(r, Err(Refusal::EndedAt { address }));
}
