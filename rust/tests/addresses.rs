// Bad addresses, at their boundaries. The image of tests/images has text at 65536, data and bss from 69632 up to 77824, and the stack up
// to the top; all else is unmapped.

mod memory;

use holthrimi::{number, Checked, Form, Lent, Refusal, Result, Setup};
use memory::{bad, ended_at, Memory, IMAGE};

const TOP: u64 = Setup::DEPOSIT.uaddrtop;
const STACK: u64 = TOP - Setup::DEPOSIT.ustksize;
/// Where data and bss begin and end.
const DATA: u64 = 69632;
const END: u64 = 77824;
const LAST: u64 = u64::MAX;

const FINE: Result<Checked> = Ok(Checked::Fine);

/// What a call answers that is made of process 1, freshly started, with these bytes stored in it.
fn of<T>(stored: &[(u64, &[u8])], call: impl FnOnce(&mut Lent) -> T) -> T {
    let mut m = Memory::started(16);
    for (at, bytes) in stored {
        m.lent().copy_to_user(1, *at, bytes).unwrap();
    }
    call(&mut m.lent())
}

/// A call that ends process 1 at an address: its child lives on, and no frame's bytes have changed.
fn ends<T: std::fmt::Debug + PartialEq>(stored: &[(u64, &[u8])], call: impl FnOnce(&mut Lent) -> Result<T>, address: u64) {
    of(stored, |lent| {
        lent.fork(1, 16).unwrap();
        let frames = lent.frames.to_vec();
        ended_at(call(lent), address);
        assert_eq!(lent.end(1), Err(Refusal::Refused(number::DEAD)));
        assert!(lent.frames == frames && lent.check() == Ok(()) && lent.end(16) == Ok(()));
    });
}

/// A range that process 1 is to read, and one that it is to write.
fn read(at: u64, len: u64) -> Result<Checked> {
    of(&[], |lent| lent.user_range_ok(1, at, len, false))
}

fn write(at: u64, len: u64) -> Result<Checked> {
    of(&[], |lent| lent.user_range_ok(1, at, len, true))
}

#[test]
fn ranges_at_the_top() {
    // One that ends at the top, and one past it.
    assert_eq!((write(STACK, 16384), write(TOP - 1, 1)), (FINE, FINE));
    assert_eq!((write(STACK, 16385), read(TOP - 1, 2)), (bad(TOP), bad(TOP)));
    // None and one byte at the top, and above it.
    assert_eq!((read(TOP, 0), read(TOP, 1)), (FINE, bad(TOP)));
    assert_eq!((read(TOP + 1, 0), write(TOP + 1, 1)), (bad(TOP + 1), bad(TOP + 1)));
    // Sums that leave 64 bits.
    assert_eq!((read(LAST, 2), read(LAST, 1), read(LAST, 0)), (bad(LAST), bad(LAST), bad(LAST)));
    assert_eq!((read(TOP - 1, LAST), read(TOP, LAST), write(DATA, LAST)), (bad(TOP), bad(TOP), bad(END)));
    // Below the top, what isn't mapped comes first.
    assert_eq!((read(STACK - 1, 16386), read(END - 1, TOP)), (bad(STACK - 1), bad(END)));
}

#[test]
fn ranges() {
    // 0 and 1 are bad addresses too.
    assert_eq!((read(0, 1), write(0, LAST), read(1, 1)), (bad(0), bad(0), bad(1)));
    assert_eq!((read(0, 0), read(1, 0)), (FINE, FINE));
    // The first byte of an unmapped page, reached from the one before.
    assert_eq!((write(END - 1, 1), write(END - 1, 2), read(65536, 65536)), (FINE, bad(END), bad(END)));
    assert_eq!((read(65535, 2), read(80000, 1), read(80000, 0)), (bad(65535), bad(80000), FINE));
    // Text in a range to be written, from its middle on.
    assert_eq!((read(67584, 4096), write(67584, 4096), write(DATA - 1, 2)), (FINE, bad(67584), bad(DATA - 1)));
}

// Where the address space goes on above the stack, the stack's top isn't the end.
#[test]
fn ranges_above_the_stack() {
    let setup = Setup { utzero: 65536, ustktop: 1 << 20, ustksize: 4096, uaddrtop: (1 << 20) + 8192, flags: Setup::BUILT_IN };
    let mut m = Memory::new(16);
    let mut lent = Lent { setup, ..m.lent() };
    lent.start(1, Form::Elf, IMAGE, b"x", b"", &[]).unwrap();
    let read = |at, len| lent.user_range_ok(1, at, len, false);
    assert_eq!((read((1 << 20) - 1, 1), read((1 << 20) - 1, 2)), (FINE, bad(1 << 20)));
    assert_eq!((read((1 << 20) - 1, LAST), read(setup.uaddrtop - 1, 2)), (bad(1 << 20), bad(setup.uaddrtop - 1)));
    assert_eq!((read(setup.uaddrtop, 0), read(setup.uaddrtop, 1)), (FINE, bad(setup.uaddrtop)));
    assert_eq!(read(setup.uaddrtop + 1, 0), bad(setup.uaddrtop + 1));
}

// The string copy names the first byte that can't be read, keeps those before it, and ends nothing.
#[test]
fn strings() {
    let string = |stored: &[(u64, &[u8])], at, len| {
        of(stored, |lent| {
            let mut text = [b'.'; 8];
            let r = lent.try_copy_str_from_user(1, &mut text[..len], at);
            assert_eq!(lent.user_range_ok(1, DATA, 1, true), FINE);
            (r, String::from_utf8(text.to_vec()).unwrap())
        })
    };
    let refused_at = |address, text: &str| (Err(Refusal::RefusedAt { address }), text.to_string());
    assert_eq!(string(&[(END - 4, b"mot\0")], END - 4, 8), (Ok(3), "mot.....".into()));
    let to_the_end: &[(u64, &[u8])] = &[(END - 4, b"mots"), (TOP - 4, b"haut")];
    assert_eq!(string(to_the_end, END - 4, 8), refused_at(END, "mots...."));
    assert_eq!(string(to_the_end, END - 4, 5), refused_at(END, "mots...."));
    assert_eq!(string(to_the_end, END - 4, 4), (Ok(4), "mots....".into()));
    assert_eq!(string(to_the_end, TOP - 4, 8), refused_at(TOP, "haut...."));
    for at in [0, 1, 4096, END, TOP, TOP + 1, LAST] {
        assert_eq!(string(&[], at, 8), refused_at(at, "........"));
        assert_eq!(string(&[], at, 0), (Ok(0), "........".into()));
    }
}

#[test]
fn copies() {
    for (at, len, address) in
        [(END - 1, 2, END), (TOP - 1, 2, TOP), (TOP, 1, TOP), (TOP + 1, 0, TOP + 1), (0, 1, 0), (LAST, 2, LAST)]
    {
        ends(&[], |lent| lent.copy_from_user(1, &mut vec![7; len], at), address);
        ends(&[], |lent| lent.copy_to_user(1, at, &vec![7; len]), address);
    }
    ends(&[], |lent| lent.copy_to_user(1, 67584, &[7; 4096]), 67584);
    assert_eq!(of(&[], |lent| (lent.copy_from_user(1, &mut [], TOP), lent.copy_to_user(1, END, &[]))), (Ok(()), Ok(())));
}

// A push names its first part that can't be written: of each argument its bytes, its NUL and its pointer; at the end the null.
#[test]
fn pushes() {
    let push = |top: u64, args: &[&[u8]], address| {
        let lengths: Vec<u64> = args.iter().map(|a| a.len() as u64).collect();
        ends(&[], |lent| lent.push(1, 0, top, &args.concat(), &lengths), address);
    };
    // Below address 0, and from it on.
    push(0, &[], 0);
    push(16, &[b""], 0);
    push(16, &[b"lex", b"mot"], 0);
    push(32, &[b"lex", b"mot"], 24);
    push(16, &[], 8);
    // The second argument's bytes; the NUL of an empty one; the null alone.
    push(END + 16, &[b"a", &[b'b'; 30]], END);
    push(END + 16, &[b""], END + 15);
    push(END + 16, &[], END + 8);
    // The first argument's NUL, behind bytes that end with the page; the second's bytes, behind such a NUL.
    push(END + 16, &[&[b'a'; 5], &[b'b'; 14]], END);
    push(END + 16, &[&[b'a'; 4], &[b'b'; 15]], END);
    // The pointer to the first argument, below the stack, though all strings could be written.
    push(STACK + 16, &[b"a", b"b"], STACK - 16);
    push(STACK + 16, &[b"abcdefgh"], STACK - 16);
    // Past the top.
    push(TOP + 16, &[b"a"], TOP + 14);
    push(TOP + 16, &[b"a", &[b'b'; 30]], TOP);
}

// Where the first pointer and the second argument's bytes both fail, it is the pointer, since it is written before them.
#[test]
fn pointer_before_bytes() {
    let setup = Setup { ustksize: 65536, ..Setup::DEPOSIT };
    for (strings, address) in [(DATA + 8, DATA - 16), (DATA + 16, DATA - 8), (DATA + 24, END)] {
        let mut m = Memory::new(32);
        let mut lent = Lent { setup, ..m.lent() };
        lent.start(1, Form::Elf, IMAGE, b"x", b"", &[]).unwrap();
        let second = END + 16 - strings - 3;
        ended_at(lent.push(1, 0, END + 16, &vec![b'a'; 1 + second as usize], &[1, second]), address);
    }
}

// A replace names the first pointer or string, in reading order, that can't be read.
#[test]
fn arguments() {
    let words = |words: &[u64]| words.iter().flat_map(|w| w.to_le_bytes()).collect::<Vec<u8>>();
    let replace = |stored: &[(u64, &[u8])], argv, address| {
        ends(stored, |lent| lent.replace(1, Form::Elf, IMAGE, b"mot", argv), address);
    };
    // The third pointer is on an unmapped page.
    replace(&[(END - 16, &words(&[DATA, DATA]))], END - 16, END);
    // A pointer that lies across the end of a page, or of the address space; one that isn't mapped.
    replace(&[], END - 4, END);
    replace(&[], TOP - 4, TOP);
    for argv in [0, 1, END, TOP, TOP + 1, LAST] {
        replace(&[], argv, argv);
    }
    // A string that isn't mapped, and one that reaches an unmapped page: both before the next pointer, which isn't mapped either.
    for address in [1, 4096, TOP, TOP + 1, LAST] {
        replace(&[(END - 8, &words(&[address]))], END - 8, address);
    }
    replace(&[(TOP - 3, b"lex"), (END - 8, &words(&[TOP - 3]))], END - 8, TOP);
}

// What a refusal says.
#[test]
fn said() {
    let refusals =
        [Refusal::Refused(3), Refusal::Ended(33), Refusal::RefusedAt { address: 0 }, Refusal::EndedAt { address: TOP }];
    assert_eq!(refusals.map(Refusal::number), [3, 33, 35, 35]);
    assert_eq!(refusals.map(Refusal::address), [None, None, Some(0), Some(TOP)]);
    let texts = ["refused 3", "ended 33", "refused 35 at 0", "ended 35 at 140737488355328"];
    assert_eq!(refusals.map(|r| r.to_string()), texts);
}
