// A start, breaks, forks and ends through the safe functions, with the 184-byte image of tests/images: a page of text, two of data and bss,
// and the stack's four.

mod memory;

use holthrimi::{book_words, flags_lines, number, parse, plan, read_flags, Flags, Form, Lent, Proc, Procs, Refusal, Setup};
use holthrimi::{Checked, UserSegment, VirtRange, DATA, FRAME_WORDS, RODATA, TEXT};
use memory::{bad, ended_at, refused, Memory, IMAGE};

#[test]
fn start() {
    let mut m = Memory::new(16);
    let regs = m.lent().start(1, Form::Elf, IMAGE, b"/bin/lex", b"lexmot", &[3, 3]).unwrap();
    assert_eq!((regs.pc, regs.sp, regs.argc, regs.argv), (65712, Setup::DEPOSIT.ustktop - 32, 2, Setup::DEPOSIT.ustktop - 32));
    assert_eq!(m.free(), 16 - 7);
    assert_eq!((*m.place(15, 1), *m.count(15)), (65536 + 16 + TEXT, 1));
    assert_eq!(&m.procs.all[0].text[..4], b"lex\0");
    assert_eq!(m.procs.all[0].bss, VirtRange { start: 69816, end: 77824 });
    assert_eq!((m.byte(1, 65536), m.byte(1, 69816), m.byte(1, 77824)), (Some(127), Some(0), None));
    let mut text = [b'.'; 8];
    assert_eq!(m.lent().try_copy_str_from_user(1, &mut text, Setup::DEPOSIT.ustktop - 4), Ok(3));
    assert_eq!(&text, b"mot.....");
    // Refusals, in their order, which change nothing.
    let before = (m.frames.clone(), m.book.clone(), m.procs);
    refused(m.lent().start(1, Form::Elf, IMAGE, b"x", b"", &[]), number::TAKEN);
    refused(m.lent().start(17, Form::Elf, IMAGE, b"x", b"", &[]), number::NUMBER);
    refused(m.lent().start(17, Form::Elf, IMAGE, b"x", b"", &[1]), number::SIZES);
    refused(m.lent().start(2, Form::Elf, &IMAGE[..63], b"x", b"a\0", &[2]), number::EBADARG);
    refused(m.lent().start(2, Form::Elf, &IMAGE[..63], b"x", &[b'a'; 4072], &[4072]), number::ENOVMEM);
    refused(m.lent().start(2, Form::Elf, &IMAGE[..63], b"x", b"a", &[1]), number::EBADEXEC);
    assert!((&m.frames, &m.book, m.procs) == (&before.0, &before.1, before.2));
    m.lent().start(2, Form::Elf, IMAGE, b"x", b"", &[]).unwrap();
    refused(m.lent().start(3, Form::Elf, IMAGE, b"x", b"", &[]), number::ENOVMEM);
}

#[test]
fn brk() {
    let mut m = Memory::started(16);
    assert_eq!(m.lent().brk(1, 0), Ok(69816));
    assert_eq!(m.lent().brk(1, 77825), Ok(0));
    assert_eq!((m.byte(1, 77824), m.free()), (Some(0), 8));
    m.lent().copy_to_user(1, 77830, b"kept").unwrap();
    // A shrink inside the page keeps its tail; one past it doesn't.
    assert_eq!(m.lent().brk(1, 77826), Ok(0));
    assert_eq!(m.byte(1, 77830), Some(b'k'));
    assert_eq!(m.lent().brk(1, 77824), Ok(0));
    assert_eq!(m.lent().brk(1, 77825), Ok(0));
    assert_eq!(m.byte(1, 77830), Some(0));
    refused(m.lent().brk(1, 69815), number::ENOVMEM);
    refused(m.lent().brk(1, u64::MAX), number::ENOVMEM);
    refused(m.lent().brk(1, Setup::DEPOSIT.limit() + 1), number::ESOVERLAP);
    refused(m.lent().brk(1, Setup::DEPOSIT.limit()), number::ENOVMEM);
    refused(m.lent().brk(2, 0), number::DEAD);
}

// A fork takes frames for data, bss and stack alone: six of the parent's seven pages.
#[test]
fn fork() {
    let mut m = Memory::forked(16);
    assert_eq!((m.free(), m.procs.all[0]), (16 - 7 - 6, m.procs.all[15]));
    assert_eq!((*m.place(15, 1), *m.place(15, 16), *m.count(15)), (65536 + 16 + TEXT, 65536 + 16 * 16 + TEXT, 2));
    for k in 0..15 {
        let (parent, child) = (*m.place(k, 1), *m.place(k, 16));
        assert!(parent == 0 || child == 0);
        assert_eq!(*m.count(k), (parent != 0 || child != 0) as u64);
    }
    refused(m.lent().fork(1, 16), number::TAKEN);
    refused(m.lent().fork(1, 17), number::NUMBER);
    refused(m.lent().fork(2, 3), number::DEAD);
    refused(m.lent().fork(1, 2), number::ENOVMEM);
    // Six free frames are enough, five are not.
    assert_eq!(Memory::forked(13).free(), 0);
    refused(Memory::started(12).lent().fork(1, 16), number::ENOVMEM);
    // A child's child shares with both.
    let mut m = Memory::forked(19);
    m.lent().fork(16, 2).unwrap();
    assert_eq!((*m.place(18, 2), *m.count(18), m.free()), (65536 + 2 * 16 + TEXT, 3, 0));
}

// With the list of the parent's segments lent, a fork is the same; a list unlike them is 2, after the book's and before 3, 4, 5 and 33.
#[test]
fn fork_list() {
    let mut m = Memory::started(16);
    let list = m.procs.all[0].used().to_vec();
    assert_eq!(list.iter().map(|s| s.perm).collect::<Vec<_>>(), [TEXT, DATA, DATA]);
    let before = (m.frames.clone(), m.book.clone(), m.procs);
    let mut unlike = vec![list[..2].to_vec(), list[1..].to_vec(), Vec::new(), m.procs.all[0].segments.to_vec()];
    for more in [list[2], UserSegment::default()] {
        unlike.push([&list[..], &[more]].concat());
    }
    for (i, s) in list.iter().enumerate() {
        let VirtRange { start, end } = s.range;
        for (start, end, perm) in [(start + 4096, end, s.perm), (start, end + 4096, s.perm), (start, end, s.perm ^ 1)] {
            unlike.push(list.clone());
            unlike.last_mut().unwrap()[i] = UserSegment { range: VirtRange { start, end }, perm };
        }
    }
    for other in &unlike {
        for child in [16, 1, 17] {
            refused(m.lent().fork_list(1, child, other), number::TORN);
        }
    }
    let mut lent = m.lent();
    lent.setup.uaddrtop += 4096;
    refused(lent.fork_list(1, 16, &unlike[0]), number::SETUP);
    lent.frames = &mut [];
    refused(lent.fork_list(1, 16, &unlike[0]), number::SIZES);
    refused(m.lent().fork_list(1, 17, &list), number::NUMBER);
    refused(m.lent().fork_list(17, 16, &unlike[0]), number::NUMBER);
    refused(m.lent().fork_list(2, 3, &list), number::TORN);
    refused(m.lent().fork_list(2, 1, &[]), number::DEAD);
    refused(m.lent().fork_list(1, 1, &list), number::TAKEN);
    assert!((&m.frames, &m.book, m.procs) == (&before.0, &before.1, before.2));
    m.lent().fork_list(1, 16, &list).unwrap();
    let other = Memory::forked(16);
    assert!((&m.frames, &m.book, m.procs) == (&other.frames, &other.book, other.procs));
    refused(m.lent().fork_list(1, 16, &list), number::TAKEN);
    refused(m.lent().fork_list(1, 2, &list), number::ENOVMEM);
    refused(m.lent().fork_list(1, 2, &unlike[0]), number::TORN);
    assert!((&m.frames, &m.book, m.procs) == (&other.frames, &other.book, other.procs));
    *m.place(0, 1) = 1;
    refused(m.lent().fork_list(17, 16, &list), number::TORN);
}

// What one writes, the other does not see; and text that is shared is written by neither.
#[test]
fn fork_writes() {
    let mut m = Memory::forked(16);
    m.lent().copy_to_user(16, 69812, b"D").unwrap();
    assert_eq!((m.byte(1, 69812), m.byte(16, 69812)), (Some(IMAGE[180]), Some(b'D')));
    m.lent().copy_to_user(1, 73728, b"P").unwrap();
    assert_eq!((m.byte(1, 73728), m.byte(16, 73728)), (Some(b'P'), Some(0)));
    let top = Setup::DEPOSIT.ustktop;
    m.lent().push(16, 65712, top, b"two", &[3]).unwrap();
    assert_eq!((m.byte(1, top - 4), m.byte(16, top - 4)), (Some(b'm'), Some(b't')));
    assert_eq!(m.lent().user_range_ok(1, 65536, 1, true), bad(65536));
    ended_at(m.lent().copy_to_user(1, 65536, b"T"), 65536);
    assert_eq!((m.byte(16, 65536), *m.place(15, 1), *m.count(15)), (Some(127), 0, 1));
}

// A frame is free when its last holder has ended.
#[test]
fn fork_ends() {
    for (first, last) in [(1, 16), (16, 1)] {
        let mut m = Memory::forked(16);
        m.lent().end(first).unwrap();
        let held = 65536 + 16 * last + TEXT;
        assert_eq!((*m.place(15, first as usize), *m.place(15, last as usize), *m.count(15)), (0, held, 1));
        assert_eq!((m.byte(last, 65536), m.byte(last, 69812), m.free()), (Some(127), Some(IMAGE[180]), 16 - 7));
        m.lent().end(last).unwrap();
        assert_eq!((*m.count(15), m.free(), m.book.iter().all(|w| *w == 0)), (0, 16, true));
    }
}

// Of two that share, one is replaced: the other keeps the frame. A replace needs seven frames: six it holds alone, and one free.
#[test]
fn fork_replaces() {
    let argv = Setup::DEPOSIT.ustktop - 32;
    for n in [1, 16] {
        let other = 17 - n;
        let mut m = Memory::forked(14);
        let regs = m.lent().replace(n, Form::Elf, IMAGE, b"mot", argv).unwrap();
        assert_eq!((regs.pc, regs.argc, m.free(), m.lent().check()), (65712, 2, 0, Ok(())));
        assert_eq!((*m.place(13, n as usize), *m.place(13, other as usize), *m.count(13)), (0, 65536 + 16 * other + TEXT, 1));
        assert_eq!((m.byte(n, 65536), m.byte(other, 65536)), (Some(127), Some(127)));
        let mut m = Memory::forked(13);
        assert_eq!(m.lent().replace(n, Form::Elf, IMAGE, b"mot", argv), Err(Refusal::Ended(number::ENOVMEM)));
        assert_eq!((m.byte(other, 65536), *m.count(12), m.free(), m.lent().check()), (Some(127), 1, 13 - 7, Ok(())));
    }
}

#[test]
fn end() {
    let mut m = Memory::started(16);
    let frames = m.frames.clone();
    m.lent().end(1).unwrap();
    assert_eq!((m.free(), m.procs, &m.frames), (16, Procs::default(), &frames));
    refused(m.lent().end(1), number::DEAD);
    // A bad address ends a process, with no byte copied.
    let mut m = Memory::started(16);
    let mut buffer = [7; 16];
    ended_at(m.lent().copy_from_user(1, &mut buffer, 77820), 77824);
    assert_eq!((buffer, m.free()), ([7; 16], 16));
}

#[test]
fn push_and_replace() {
    let mut m = Memory::started(16);
    refused(m.lent().push(1, 65712, Setup::DEPOSIT.ustktop - 8, b"a", &[1]), number::TOP);
    let regs = m.lent().push(1, 65712, Setup::DEPOSIT.ustktop, b"abc", &[1, 2]).unwrap();
    let regs = m.lent().replace(1, Form::Elf, IMAGE, b"mot", regs.argv).unwrap();
    assert_eq!((regs.pc, regs.argc, m.free()), (65712, 2, 9));
    assert_eq!(&m.procs.all[0].text[..4], b"mot\0");
    ended_at(m.lent().replace(1, Form::Elf, IMAGE, b"mot", 8), 8);
    assert_eq!(m.free(), 16);
}

#[test]
fn what_is_lent() {
    assert_eq!((std::mem::size_of::<Proc>(), std::mem::size_of::<Procs>()), (432, 6912));
    let mut m = Memory::started(16);
    assert_eq!(m.lent().check(), Ok(()));
    *m.place(0, 1) = 65536 + 16 + DATA;
    refused(m.lent().check(), number::TORN);
    refused(m.lent().end(1), number::TORN);
    m.frames.pop();
    refused(m.lent().check(), number::SIZES);
    // The book has 17 words a frame, no more and no fewer.
    for words in [0, 1, 16, 16 * 16, 16 * 17 - 17, 16 * 17 - 1, 16 * 17 + 1, 16 * 18, 17 * 17] {
        let mut m = Memory::started(16);
        m.book.resize(words, 0);
        refused(m.lent().check(), number::SIZES);
        refused(m.lent().fork(1, 2), number::SIZES);
    }
    let mut none = Memory::new(0);
    refused(none.lent().end(1), number::SIZES);
    let mut many = Memory::new(1025);
    refused(many.lent().end(1), number::SIZES);
    let mut most = Memory::new(1024);
    refused(most.lent().end(1), number::DEAD);
    assert_eq!([0, 1, 1024, 1025, usize::MAX].map(book_words), [0, 17, 17 * 1024, 0, 0]);
}

// A book whose counts and mappings don't agree, or whose frames are shared otherwise than forks do it, is refused and stays as it is.
#[test]
fn torn() {
    let with = |change: &dyn Fn(&mut Memory)| {
        let mut m = Memory::forked(16);
        assert_eq!(m.lent().check(), Ok(()));
        change(&mut m);
        let before = (m.frames.clone(), m.book.clone(), m.procs);
        refused(m.lent().check(), number::TORN);
        refused(m.lent().fork(1, 2), number::TORN);
        refused(m.lent().end(16), number::TORN);
        refused(m.lent().user_range_ok(1, 65536, 1, false), number::TORN);
        assert!((&m.frames, &m.book, m.procs) == (&before.0, &before.1, before.2));
    };
    // The count of a shared frame, of a data frame, and of a free one.
    for (k, right) in [(15, 2), (14, 1), (0, 0)] {
        assert_eq!(*Memory::forked(16).count(k), right);
        for wrong in [0, 1, 2, 3, 17, u64::MAX] {
            if wrong != right {
                with(&|m| *m.count(k) = wrong);
            }
        }
    }
    // The child's mapping of the text: gone, with and without its count; in the place of another; of another page or permission.
    with(&|m| *m.place(15, 16) = 0);
    with(&|m| (*m.place(15, 16), *m.count(15)) = (0, 1));
    with(&|m| *m.place(15, 2) = std::mem::take(m.place(15, 16)));
    with(&|m| *m.place(15, 16) += 4096);
    with(&|m| *m.place(15, 16) += 1);
    // Data in one frame for both.
    with(&|m| {
        let page = *m.place(14, 1) - 16;
        let own = (0..15).find(|k| *m.place(*k, 16) == page + 16 * 16).unwrap();
        (*m.place(own, 16), *m.count(own)) = (0, 0);
        (*m.place(14, 16), *m.count(14)) = (page + 16 * 16, 2);
    });
}

#[test]
fn no_calls() {
    let p = plan(Setup::DEPOSIT, Form::Elf, IMAGE).unwrap();
    assert_eq!((p.entry, p.count, p.pages, p.bss), (65712, 2, 7, VirtRange { start: 69816, end: 77824 }));
    refused(plan(Setup::DEPOSIT, Form::Elf, &IMAGE[..63]), number::EBADEXEC);
    refused(parse(Setup::DEPOSIT, Form::Elf, &IMAGE[..63]), 11);
    assert_eq!(parse(Setup::DEPOSIT, Form::Elf, IMAGE), Ok(()));
    let bss = VirtRange { start: 8192, end: 12288 };
    assert_eq!(holthrimi::ibrk(Setup::DEPOSIT, Some(bss), 12289, 1), Ok((0, VirtRange { start: 8192, end: 16384 })));
    refused(holthrimi::ibrk(Setup::DEPOSIT, Some(bss), 12289, 0), number::ENOVMEM);
    refused(holthrimi::ibrk(Setup::DEPOSIT, None, 0, 0), number::EBADARG);
    assert_eq!((holthrimi::stack_size(453, 453), holthrimi::stack_size(u64::MAX, 0)), (4096, u64::MAX));
    assert_eq!(holthrimi::check_args(Setup::DEPOSIT, &[], &[0; 453]), Ok(()));
    refused(holthrimi::check_args(Setup::DEPOSIT, &[], &[0; 454]), number::ENOVMEM);
    assert_eq!(&holthrimi::kstrcpy(b"a name of more than 27 bytes"), b"a name of more than 27 b...\0");
}

// The machine's numbers: the smallest and the largest stack, with a quarter of it as the arguments' limit, and numbers that break a
// condition.
#[test]
fn setups() {
    let top = 1 << 20;
    for size in [4096, 65536] {
        let setup = Setup { utzero: 4096, ustktop: top, ustksize: size, uaddrtop: top, flags: Setup::BUILT_IN };
        let most = (size / 4 - 24) as usize;
        let mut m = Memory::new(48);
        let mut lent = Lent { setup, ..m.lent() };
        refused(lent.start(1, Form::Elf, IMAGE, b"x", &vec![b'a'; most], &[most as u64]), number::ENOVMEM);
        let regs = lent.start(1, Form::Elf, IMAGE, b"x", &vec![b'a'; most - 1], &[most as u64 - 1]).unwrap();
        assert_eq!((regs.argv, regs.argc), (top - size / 4 + 8, 1));
        // The arguments of a replace are those that its start pushed.
        let again = lent.replace(1, Form::Elf, IMAGE, b"y", regs.argv).unwrap();
        assert_eq!((again.sp, again.argv, again.argc), (regs.sp, regs.argv, 1));
        let mut text = vec![b'.'; most];
        assert_eq!(lent.try_copy_str_from_user(1, &mut text, top - most as u64), Ok(most - 1));
        assert_eq!(lent.user_range_ok(1, top, 0, false), Ok(Checked::Fine));
        assert_eq!(lent.user_range_ok(1, top + 1, 0, false), bad(top + 1));
        assert_eq!(lent.check(), Ok(()));
        // 38 comes directly after 1, and before a torn book.
        lent.book[0] ^= 1;
        refused(lent.check(), number::TORN);
        lent.setup.uaddrtop -= 4096;
        refused(lent.end(17), number::SETUP);
        refused(lent.check(), number::SETUP);
        refused(plan(lent.setup, Form::Elf, IMAGE), number::SETUP);
        refused(holthrimi::ibrk(lent.setup, None, 0, 0), number::SETUP);
        refused(holthrimi::check_args(lent.setup, b"\0", &[1]), number::SETUP);
        refused(holthrimi::check_args(lent.setup, b"\0", &[2]), number::SIZES);
        refused(lent.start(2, Form::Elf, IMAGE, b"x", b"", &[1]), number::SIZES);
    }
}

// Their four lines, written and read.
#[test]
fn lines() {
    let text = b"UTZERO=65536\nUSTKTOP=140737488355328\nUSTKSIZE=16384\nUADDRTOP=140737488355328\n";
    assert_eq!(Setup::DEPOSIT.lines(&mut [0; 117]), text);
    assert_eq!(Setup::read(text), Ok(Setup::DEPOSIT));
    refused(Setup::read(&text[..text.len() - 1]), number::SETUP_LINES);
    refused(Setup::read(b"UTZERO=65536\nUSTKTOP=65536\nUSTKSIZE=16384\nUADDRTOP=140737488355328\n"), number::SETUP);
}

/// The built-in flag table with one row changed.
fn with_row(row: usize, code: u8) -> Flags {
    let mut flags = Setup::BUILT_IN;
    flags[row] = code;
    flags
}

// A flag table against the rules is 39 from every call, after 1 and 38 and before a torn book, whatever rows the image uses.
#[test]
fn flag_tables() {
    let argv = Setup::DEPOSIT.ustktop - 32;
    for row in 0..8 {
        for code in [0, 1, 2, 3, 4, 255] {
            let fine = code == 0
                || match row {
                    4 => code == 2,
                    5 => code == 1 || code == 2,
                    6 => code == 3 || code == 2,
                    _ => false,
                };
            let mut m = Memory::started(16);
            let before = (m.frames.clone(), m.book.clone(), m.procs);
            let list = m.procs.all[0].used().to_vec();
            let mut lent = m.lent();
            lent.setup.flags = with_row(row, code);
            let setup = lent.setup;
            if fine {
                assert_eq!((lent.check(), lent.user_range_ok(1, 65536, 1, false)), (Ok(()), Ok(Checked::Fine)));
                assert_eq!(read_flags(flags_lines(setup.flags, &mut [0; 120])), Ok(setup.flags));
                continue;
            }
            assert_eq!(flags_lines(setup.flags, &mut [0; 120]), b"");
            refused(parse(setup, Form::Elf, IMAGE), number::FLAGS);
            refused(plan(setup, Form::Elf, IMAGE), number::FLAGS);
            refused(holthrimi::ibrk(setup, None, 0, 0), number::FLAGS);
            refused(holthrimi::check_args(setup, b"\0", &[1]), number::FLAGS);
            refused(holthrimi::check_args(setup, b"\0", &[2]), number::SIZES);
            lent.book[FRAME_WORDS - 1] = 1;
            refused(lent.check(), number::FLAGS);
            refused(lent.start(17, Form::Elf, &IMAGE[..63], b"x", b"\0", &[1]), number::FLAGS);
            refused(lent.replace(17, Form::Elf, &IMAGE[..63], b"x", argv), number::FLAGS);
            refused(lent.push(17, 0, 8, b"\0", &[1]), number::FLAGS);
            refused(lent.brk(17, 0), number::FLAGS);
            refused(lent.fork(17, 17), number::FLAGS);
            refused(lent.fork_list(1, 17, &list[1..]), number::FLAGS);
            refused(lent.end(17), number::FLAGS);
            refused(lent.user_range_ok(17, 0, 0, false), number::FLAGS);
            refused(lent.copy_from_user(17, &mut [7], 0), number::FLAGS);
            refused(lent.copy_to_user(17, 0, b"x"), number::FLAGS);
            refused(lent.try_copy_str_from_user(17, &mut [7], 0), number::FLAGS);
            lent.setup.uaddrtop += 4096;
            refused(lent.end(1), number::SETUP);
            refused(lent.check(), number::SETUP);
            refused(plan(lent.setup, Form::Elf, IMAGE), number::SETUP);
            refused(holthrimi::ibrk(lent.setup, None, 0, 0), number::SETUP);
            refused(holthrimi::check_args(lent.setup, b"\0", &[1]), number::SETUP);
            refused(lent.start(2, Form::Elf, IMAGE, b"x", b"", &[1]), number::SIZES);
            lent.frames = &mut [];
            refused(lent.end(1), number::SIZES);
            m.book[FRAME_WORDS - 1] = 0;
            assert!((&m.frames, &m.book, m.procs) == (&before.0, &before.1, before.2));
        }
    }
}

// A writable segment under a table that has it as rodata: its pages cannot be written, a fork shares them, and the bss behind it is empty.
#[test]
fn rodata_in_row_6() {
    let setup = Setup { flags: with_row(6, RODATA as u8), ..Setup::DEPOSIT };
    assert_eq!((parse(Setup::DEPOSIT, Form::Elf, IMAGE), parse(setup, Form::Elf, IMAGE)), (Ok(()), Ok(())));
    let p = plan(setup, Form::Elf, IMAGE).unwrap();
    assert_eq!((p.count, p.pages, p.bss), (2, 7, VirtRange { start: 77824, end: 77824 }));
    let mut m = Memory::new(16);
    let mut lent = Lent { setup, ..m.lent() };
    lent.start(1, Form::Elf, IMAGE, b"x", b"", &[]).unwrap();
    assert_eq!(lent.procs.all[0].segments.map(|s| s.perm)[..4], [TEXT, RODATA, DATA, 0]);
    assert_eq!((lent.user_range_ok(1, 69812, 4, false), lent.user_range_ok(1, 69812, 1, true)), (Ok(Checked::Fine), bad(69812)));
    assert_eq!(lent.brk(1, 0), Ok(77824));
    lent.fork(1, 2).unwrap();
    ended_at(lent.copy_to_user(1, 69812, b"D"), 69812);
    let mut byte = [0];
    lent.copy_from_user(2, &mut byte, 69812).unwrap();
    assert_eq!(byte[0], IMAGE[180]);
    // Row 5 or 6 refused: 25, which a start answers with 30; row 5 rodata: no text has the entry. Row 4 the image does not use.
    for (row, code, elf) in [(5, 0, Err(25)), (6, 0, Err(25)), (5, RODATA as u8, Err(27)), (4, 0, Ok(()))] {
        lent.setup.flags = with_row(row, code);
        assert_eq!(parse(lent.setup, Form::Elf, IMAGE).map_err(Refusal::number), elf);
        let started = lent.start(3, Form::Elf, IMAGE, b"x", b"", &[]).map(|_| ()).map_err(Refusal::number);
        assert_eq!(started, elf.map_err(|_| number::EBADEXEC));
    }
}

// The eight lines of a flag table, written and read.
#[test]
fn flag_lines() {
    let text = b"flags0=refused\nflags1=refused\nflags2=refused\nflags3=refused\nflags4=rodata\nflags5=text\nflags6=data\nflags7=refused\n";
    assert_eq!(flags_lines(Setup::BUILT_IN, &mut [0; 120]), text);
    assert_eq!(read_flags(text), Ok(Setup::BUILT_IN));
    assert_eq!(flags_lines([0; 8], &mut [0; 120]).len(), 120);
    assert_eq!(read_flags(flags_lines([0; 8], &mut [0; 120])), Ok([0; 8]));
    refused(read_flags(&text[..text.len() - 1]), number::FLAGS);
    refused(read_flags(&[&text[..], b"\n"].concat()), number::FLAGS);
    refused(read_flags(&text[15..]), number::FLAGS);
    refused(read_flags(b""), number::FLAGS);
    // Read as described, but against the rules: text in row 4.
    refused(read_flags(&String::from_utf8_lossy(text).replace("flags4=rodata", "flags4=text").into_bytes()), number::FLAGS);
    refused(Setup::read(text), number::SETUP_LINES);
}
