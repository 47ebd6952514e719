// Plan 9's a.outs through the safe functions: each number at its boundaries, a plan, a start that reads back, and processes that go from
// one form to the other.

mod memory;

use holthrimi::{number, parse, plan, Checked, Form, Lent, Result, Setup, VirtRange, DATA, RODATA, TEXT};
use memory::{bad, ended_at, refused, Memory, IMAGE};

/// Plan 9's magic for arm64.
const MAGIC: u32 = 4 * 28 * 28 + 7;
const AOUT: Form = Form::Aout(MAGIC);
/// Where text begins, and the first instruction.
const UTZERO: u64 = Setup::DEPOSIT.utzero;
const ENTRY: u32 = UTZERO as u32 + 32;

/// An image of these words of its header, with other numbers for syms, spsz and pcsz, and `size` bytes behind it.
fn words(magic: u32, text: u32, data: u32, bss: u32, entry: u32, size: usize) -> Vec<u8> {
    let header = [magic, text, data, bss, 0xffff_fffe, entry, 0x8000_0000, 7];
    let mut image: Vec<u8> = header.iter().flat_map(|w| w.to_be_bytes()).collect();
    image.extend((0..size).map(|i| 1 + (i % 251) as u8));
    image
}

/// An image that is accepted, of whose bytes none is 0 but in its header.
fn aout(text: usize, data: usize, bss: u32) -> Vec<u8> {
    words(MAGIC, text as u32, data as u32, bss, ENTRY, text + data)
}

/// What the reader says by itself; a start and a replace answer 30 for each refusal, and a plan too, in its place of the order.
fn read(image: &[u8]) -> Result<()> {
    let r = parse(Setup::DEPOSIT, AOUT, image);
    if r.is_err() {
        refused(plan(Setup::DEPOSIT, AOUT, image), number::EBADEXEC);
        let mut m = Memory::started(24);
        let before = (m.frames.clone(), m.book.clone(), m.procs);
        refused(m.lent().start(2, AOUT, image, b"x", b"", &[]), number::EBADEXEC);
        refused(m.lent().replace(1, AOUT, image, b"x", 8), number::EBADEXEC);
        refused(m.lent().start(2, AOUT, image, b"x", b"\0", &[1]), number::EBADARG);
        assert!((&m.frames, &m.book, m.procs) == (&before.0, &before.1, before.2));
    }
    r
}

#[test]
fn numbers() {
    assert_eq!(read(&aout(8, 4, 100)), Ok(()));
    // 42: under 32 bytes, or another magic. With 32 bytes it is the later checks' turn.
    for size in [0, 4, 31] {
        refused(read(&aout(8, 4, 100)[..size]), number::NOT_AOUT);
    }
    refused(read(&aout(8, 4, 100)[..32]), number::AOUT_OUT_OF_RANGE);
    for magic in [0, MAGIC - 1, MAGIC + 1, MAGIC | 0x8000, MAGIC.swap_bytes(), u32::MAX] {
        let image = words(magic, 8, 4, 0, ENTRY, 12);
        refused(read(&image), number::NOT_AOUT);
        assert_eq!(parse(Setup::DEPOSIT, Form::Aout(magic), &image), Ok(()));
    }
    refused(read(IMAGE), number::NOT_AOUT);
    refused(parse(Setup::DEPOSIT, Form::Elf, &aout(8, 40, 0)), 12);
    // 43: text and data leave the file, by an exact sum; what stands behind them isn't read.
    for (text, data) in [(8, 4), (12, 0), (8, 0), (7, 5)] {
        assert_eq!(read(&words(MAGIC, text, data, 0, ENTRY, 12)), Ok(()));
    }
    for (text, data) in [(8, 5), (9, 4), (13, 0), (u32::MAX, 13), (12, u32::MAX), (u32::MAX, u32::MAX), (u32::MAX - 31, 0)] {
        refused(read(&words(MAGIC, text, data, 0, ENTRY, 12)), number::AOUT_OUT_OF_RANGE);
    }
    refused(read(&aout(8, 4, 100)[..43]), number::AOUT_OUT_OF_RANGE);
    // 19: the entry is no multiple of 4, in the text or not.
    for entry in [ENTRY + 1, ENTRY + 2, ENTRY + 3, ENTRY + 7, 1, u32::MAX] {
        refused(read(&words(MAGIC, 8, 4, 0, entry, 12)), 19);
    }
    // 27: it lies before the text, the header among it, or behind it, as in data.
    for entry in [ENTRY, ENTRY + 4] {
        assert_eq!(read(&words(MAGIC, 8, 4, 0, entry, 12)), Ok(()));
    }
    for entry in [0, ENTRY - 32, ENTRY - 4, ENTRY + 8, 69_632, u32::MAX - 3] {
        refused(read(&words(MAGIC, 8, 4, 0, entry, 12)), 27);
    }
    refused(read(&words(MAGIC, 0, 12, 0, ENTRY, 12)), 27);
    assert_eq!(read(&words(MAGIC, 1, 4, 0, ENTRY, 12)), Ok(()));
    // Each before the next.
    refused(read(&words(MAGIC + 1, u32::MAX, 0, 0, 1, 12)), number::NOT_AOUT);
    refused(read(&words(MAGIC, u32::MAX, 0, 0, 1, 12)), number::AOUT_OUT_OF_RANGE);
    refused(read(&words(MAGIC, 8, 4, 0, 1, 12)), 19);
}

// The setup is judged before the image, 38 then 39; the flag table says nothing of an a.out, and UTZERO where it stands.
#[test]
fn setups() {
    let image = aout(8, 4, 100);
    for form in [AOUT, Form::Elf] {
        let mut setup = Setup::DEPOSIT;
        setup.flags[7] = DATA as u8;
        refused(parse(setup, form, &image[..31]), number::FLAGS);
        refused(plan(setup, form, &image[..31]), number::FLAGS);
        setup.uaddrtop += 4096;
        refused(parse(setup, form, &image[..31]), number::SETUP);
        refused(plan(setup, form, &image[..31]), number::SETUP);
    }
    for flags in [[0; 8], [0, 0, 0, 0, 0, RODATA as u8, RODATA as u8, 0]] {
        let setup = Setup { flags, ..Setup::DEPOSIT };
        assert_eq!(parse(setup, AOUT, &image), Ok(()));
        assert_eq!(plan(setup, AOUT, &image), plan(Setup::DEPOSIT, AOUT, &image));
    }
    let setup = Setup { utzero: 4096, ..Setup::DEPOSIT };
    refused(parse(setup, AOUT, &image), 27);
    assert_eq!(parse(setup, AOUT, &words(MAGIC, 8, 4, 100, 4128, 12)), Ok(()));
    // Above 2^32 no entry, which has 32 bits, lies in the text.
    refused(parse(Setup { utzero: 1 << 32, ..Setup::DEPOSIT }, AOUT, &words(MAGIC, 8, 4, 0, 32, 12)), 27);
}

#[test]
fn plans() {
    let range = |start, end| VirtRange { start, end };
    // Text, data, bss; the pages of each segment, the bss, and the pages with the stack's four.
    for (text, data, bss, data_end, bss_range, pages) in [
        (8, 0, 0, None, range(69_632, 69_632), 5),
        (8, 4, 0, Some(73_728), range(69_636, 73_728), 6),
        (8, 0, 1, None, range(69_632, 73_728), 6),
        (8, 4, 4092, Some(73_728), range(69_636, 73_728), 6),
        (8, 4, 4093, Some(73_728), range(69_636, 77_824), 7),
        (4064, 4, 0, Some(73_728), range(69_636, 73_728), 6),
        (4065, 4, 0, Some(77_824), range(73_732, 77_824), 7),
        (8, 4096, 0, Some(73_728), range(73_728, 73_728), 6),
    ] {
        let p = plan(Setup::DEPOSIT, AOUT, &aout(text, data, bss)).unwrap();
        let data_at = (UTZERO + 32 + text as u64).next_multiple_of(4096);
        let mut segments = vec![(range(UTZERO, data_at), TEXT)];
        segments.extend(data_end.map(|end| (range(data_at, end), DATA)));
        let top = Setup::DEPOSIT.ustktop;
        let all: Vec<_> = p.segments.iter().map(|s| (s.range, s.perm)).collect();
        assert_eq!((p.entry, p.bss, p.pages, p.count), (ENTRY as u64, bss_range, pages, segments.len()));
        segments.push((range(top - 16384, top), DATA));
        assert_eq!(all[..segments.len()], segments);
        assert!(all[segments.len()..].iter().all(|s| *s == (range(0, 0), 0)));
    }
    // The layout: data and bss end at most at limit.
    let top = UTZERO + 16 * 4096;
    let setup = Setup { ustktop: top, ustksize: 4096, uaddrtop: top, ..Setup::DEPOSIT };
    let room = (setup.limit() - 69_632) as u32;
    assert!(plan(setup, AOUT, &aout(8, 4, room - 4)).is_ok());
    refused(plan(setup, AOUT, &aout(8, 4, room - 3)), number::EBADEXEC);
    assert_eq!(parse(setup, AOUT, &aout(8, 4, room - 3)), Ok(()));
    refused(plan(setup, AOUT, &aout(8, 4, u32::MAX)), number::EBADEXEC);
}

impl Memory {
    /// The bytes that a process reads in a range.
    fn bytes(&mut self, number: u64, start: u64, end: u64) -> Vec<u8> {
        let mut bytes = vec![7; (end - start) as usize];
        self.lent().copy_from_user(number, &mut bytes, start).unwrap();
        bytes
    }
}

/// The bytes at first, then zeros up to a length.
fn padded(bytes: &[u8], size: usize) -> Vec<u8> {
    let mut all = bytes.to_vec();
    all.resize(size, 0);
    all
}

// A page and a half of text with its header, half a page of data, and a page of bss behind it.
#[test]
fn start() {
    let image = aout(6112, 2048, 4096);
    let mut m = Memory::new(16);
    let regs = m.lent().start(3, AOUT, &image, b"/arm64/bin/lex", b"lexmot", &[3, 3]).unwrap();
    let top = Setup::DEPOSIT.ustktop;
    assert_eq!((regs.pc, regs.sp, regs.argc, regs.argv), (ENTRY as u64, top - 32, 2, top - 32));
    assert_eq!((m.free(), m.lent().check()), (16 - 8, Ok(())));
    assert_eq!(&m.procs.all[2].text[..4], b"lex\0");
    assert_eq!(m.procs.all[2].bss, VirtRange { start: 75_776, end: 81_920 });
    // Header and text, and zeros up to the page's end; data, and bss, zeros.
    assert!(m.bytes(3, 65_536, 73_728) == padded(&image[..32 + 6112], 8192));
    assert!(m.bytes(3, 73_728, 81_920) == padded(&image[32 + 6112..], 8192));
    assert_eq!((m.byte(3, 65_535), m.byte(3, 81_920)), (None, None));
    // Text is read alone, data and bss are written.
    let lent = m.lent();
    let written = [65_536, 73_727, 73_728, 81_919].map(|a| lent.user_range_ok(3, a, 1, true));
    assert_eq!(written, [bad(65_536), bad(73_727), Ok(Checked::Fine), Ok(Checked::Fine)]);
    // A child shares the text, and has its own data and break.
    m.lent().fork(3, 4).unwrap();
    assert_eq!((*m.count(15), *m.count(14), *m.count(13), m.free()), (2, 2, 1, 16 - 8 - 6));
    m.lent().copy_to_user(4, 73_728, b"child").unwrap();
    assert_eq!(m.byte(3, 73_728), Some(image[32 + 6112]));
    assert_eq!((m.lent().brk(4, 0), m.lent().brk(4, 81_921)), (Ok(75_776), Ok(0)));
    assert_eq!((m.byte(4, 81_920), m.byte(3, 81_920)), (Some(0), None));
    refused(m.lent().brk(4, 75_775), number::ENOVMEM);
}

// Without data and bss the bss is empty at the text's end, and the break makes it.
#[test]
fn no_data() {
    let image = aout(8, 0, 0);
    let mut m = Memory::new(8);
    m.lent().start(1, AOUT, &image, b"x", b"", &[]).unwrap();
    assert_eq!((m.free(), m.procs.all[0].used().len()), (8 - 5, 2));
    assert!(m.bytes(1, 65_536, 69_632) == padded(&image, 4096));
    assert_eq!((m.byte(1, 69_632), m.lent().brk(1, 0)), (None, Ok(69_632)));
    assert_eq!((m.lent().brk(1, 69_633), m.byte(1, 69_632)), (Ok(0), Some(0)));
    // One frame too few is 33.
    refused(Memory::new(4).lent().start(1, AOUT, &image, b"x", b"", &[]), number::ENOVMEM);
}

// An ELF becomes an a.out and an ELF again, with the arguments of its old memory; a bad one changes nothing.
#[test]
fn replace() {
    let mut m = Memory::started(16);
    let argv = Setup::DEPOSIT.ustktop - 32;
    let image = aout(6112, 2048, 4096);
    refused(m.lent().replace(1, AOUT, IMAGE, b"mot", argv), number::EBADEXEC);
    refused(m.lent().replace(1, Form::Elf, &image, b"mot", argv), number::EBADEXEC);
    refused(m.lent().replace(1, Form::Aout(MAGIC + 1), &image, b"mot", argv), number::EBADEXEC);
    assert_eq!(m.byte(1, 65_536), Some(127));
    let regs = m.lent().replace(1, AOUT, &image, b"mot", argv).unwrap();
    assert_eq!((regs.pc, regs.argc, regs.argv), (ENTRY as u64, 2, argv));
    assert_eq!((m.free(), m.lent().check(), &m.procs.all[0].text[..4]), (16 - 8, Ok(()), &b"mot\0"[..]));
    assert!(m.bytes(1, 65_536, 73_728) == padded(&image[..32 + 6112], 8192));
    assert!(m.bytes(1, 73_728, 81_920) == padded(&image[32 + 6112..], 8192));
    let regs = m.lent().replace(1, Form::Elf, IMAGE, b"lex", regs.argv).unwrap();
    assert_eq!((regs.pc, regs.argc, regs.argv), (65_712, 2, argv));
    assert_eq!((m.free(), m.byte(1, 65_536), m.byte(1, 69_812)), (16 - 7, Some(127), Some(IMAGE[180])));
    let mut text = [b'.'; 8];
    assert_eq!(m.lent().try_copy_str_from_user(1, &mut text, Setup::DEPOSIT.ustktop - 4), Ok(3));
    assert_eq!(&text, b"mot.....");
    // A bad address ends the process, of either form.
    ended_at(m.lent().replace(1, AOUT, &image, b"mot", 8), 8);
    assert_eq!(m.free(), 16);
    // An a.out under the smallest machine.
    let setup = Setup { utzero: 4096, ustktop: 16_384, ustksize: 4096, uaddrtop: 16_384, ..Setup::DEPOSIT };
    let mut lent = Lent { setup, ..m.lent() };
    let small = words(MAGIC, 8, 0, 0, 4128, 8);
    assert_eq!(lent.start(1, AOUT, &small, b"x", b"", &[]).map(|r| r.pc), Ok(4128));
    refused(lent.start(2, AOUT, &words(MAGIC, 8, 1, 0, 4128, 9), b"x", b"", &[]), number::EBADEXEC);
}
