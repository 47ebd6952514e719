//! The listing program, from what elf.rs and exec.rs say of an image.
use crate::answer::number;
use crate::script::KINDS;
use crate::world::{Machine, SEGMENTS};
use r9::dat::UserSegment;
use r9::elf::{self, ElfError};
use r9::inside::Exec;
use r9::machine::{USTKSIZE, code};
use r9::mem::{PAGE_SIZE_4K, VirtRange};
use std::fmt::Write;

/// The number of an image's refusal.
fn elf_number(e: ElfError) -> u64 {
    use ElfError::*;
    match e {
        Truncated => 11,
        BadMagic => 12,
        NotElf64 => 13,
        NotLittleEndian => 14,
        BadVersion => 15,
        NotExecutable => 16,
        NotAarch64 => 17,
        BadPhentsize => 18,
        MisalignedEntry => 19,
        PhdrsOutOfRange => 20,
        FileszOverMemsz => 21,
        SegmentOutOfRange => 22,
        Misaligned => 23,
        Overflow => 24,
        BadFlags => 25,
        Unordered => 26,
        EntryNotInText => 27,
    }
}

/// The pages of segments and bss, with the stack's.
fn count(segments: &[UserSegment], bss: VirtRange) -> usize {
    let image: usize = segments.iter().map(|s| s.range.size()).sum();
    (image + bss.end - bss.start.next_multiple_of(PAGE_SIZE_4K) + USTKSIZE) / PAGE_SIZE_4K
}

/// The pages of an image that loads.
pub fn pages(image: &[u8]) -> usize {
    let e = elf::parse(image).expect("an image that loads");
    let bss = Exec::layout::<Machine>(&e).expect("an image that loads");
    count(&Exec::segments(&e, bss), bss)
}

pub fn listing(image: &[u8]) -> String {
    match lines(image) {
        Ok(s) => s,
        Err(n) => format!("refused={n}\n"),
    }
}

fn lines(image: &[u8]) -> Result<String, u64> {
    // The harness's own: the longest image the program reads.
    if image.len() > 32_768 {
        return Err(1);
    }
    let e = elf::parse(image).map_err(elf_number)?;
    let bss = Exec::layout::<Machine>(&e).map_err(number)?;
    let segments = Exec::segments(&e, bss);
    // The harness's own: a record's room.
    if segments.len() > SEGMENTS - 1 {
        return Err(31);
    }
    let mut s = format!("entry={}\n", e.entry());
    for g in &segments {
        writeln!(s, "segment={} {} {}", KINDS[code(g.perm) as usize], g.range.start, g.range.end).unwrap();
    }
    writeln!(s, "bss={} {}\npages={}", bss.start, bss.end, count(&segments, bss)).unwrap();
    Ok(s)
}
