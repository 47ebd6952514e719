"""Request 4: the address that every 35 of a range, string or push, and every no of a range, names."""
from typing import NamedTuple

from rules.machine import MAX, PAGE
from rules.setup import DEPOSIT, Setup
from script import shown

from .built import build, seg
from .out import Out, run_of, words
from .sets import hand

# UADDRTOP is the stack's end, or a page above it, or far above it.
SCHOOL = Setup(PAGE, 16 * PAGE, 2 * PAGE, 16 * PAGE)
HIGHER = SCHOOL._replace(uaddrtop=17 * PAGE)
FAR = SCHOOL._replace(uaddrtop=2**47), DEPOSIT._replace(ustktop=2**47 - PAGE)
# A larger stack, so that arguments may be longer than a page of data, and a guard page that the bss may grow up to.
LARGE = Setup(PAGE, 14 * PAGE, 8 * PAGE, 14 * PAGE)


class Places(NamedTuple):
    """Where the pieces of the program lie: a page of text, one of rodata, a hole, a page of data, one of bss up to `end`, the stack
    from `low` to `stack`; and the top of the address space."""
    text: int
    rodata: int
    hole: int
    data: int
    end: int
    low: int
    stack: int
    top: int


def places(setup):
    pages = (setup.utzero + PAGE * k for k in (0, 1, 2, 3, 5))
    return Places(*pages, setup.low, setup.ustktop, setup.uaddrtop)


def program(setup):
    base = setup.utzero
    headers = seg(5, 0, 64, 64, base=base), seg(4, 1, 64, 64, base=base), seg(6, 3, 64, 5000, base=base)
    return shown(build(*headers, entry=base))


def begin(o, setup):
    """Process 1, with frames for a child of it."""
    o.note('the stack ends at %d, the address space at %d' % (setup.ustktop, setup.uaddrtop))
    o('frames', 8 + 2 * setup.ustksize // PAGE, 9)
    if setup != DEPOSIT:
        hand(o, setup)
    o("start 1 'lex", program(setup))


def child(o, *lines):
    """Calls of a child, which ends with them or is ended."""
    o.all('fork 1 2', *lines, 'end 2')


def ranges(o, p):
    def both(*some):
        for address, length in dict.fromkeys(some):
            o.all(f'range 1 {address} {length} r', f'range 1 {address} {length} w')
    o.note('ranges at the top: up to it, one past it, from it on, above it')
    both((p.low, p.top - p.low), (p.low, p.top - p.low + 1), (p.top - 1, 0), (p.top - 1, 1), (p.top - 1, 2), (p.top, 0), (p.top, 1),
        (p.top, PAGE), (p.top + 1, 0), (p.top + 1, 1), (2**63, 0), (2**63, 1), (MAX - 1, 1), (MAX, 0), (MAX, 1))
    both((p.stack - 1, 1), (p.stack - 1, 2), (p.stack, 0), (p.stack, 1), (p.low, p.stack - p.low), (p.low, p.stack - p.low + 1))
    o.note('sums of 2^64 - 1, 2^64 and more')
    both(*((a, 2**64 - a + more) for a in (p.stack - 1, p.top - 1, p.low, p.top, p.data, p.rodata, p.top + 1) for more in (-1, 0, 1)))
    both((MAX, 2), (MAX, MAX), (p.top, MAX), (p.low, MAX), (p.hole, MAX), (p.text, MAX), (1, MAX), (0, MAX))
    o.note('a hole: from the page before it, from its first byte, from inside it, over it')
    both((p.hole - 1, 1), (p.hole - 1, 2), (p.hole - 1, PAGE), (p.text, 2 * PAGE), (p.text, 2 * PAGE + 1), (p.rodata + 7, PAGE),
        (p.hole, 1), (p.hole + 5, 1), (p.hole + 5, PAGE), (p.data - 1, 1), (p.data - 1, 2), (p.data, 1), (p.rodata, 3 * PAGE),
        (p.text, p.top - p.text), (p.text, p.top - p.text + 1))
    o.note('what is below the image, behind the bss and below the stack')
    both((0, 1), (0, p.text + 1), (p.text - 1, 1), (p.text - 1, 2), (p.data, 2 * PAGE), (p.data, 2 * PAGE + 1), (p.data + 9, 2 * PAGE),
        (p.end - 1, 2), (p.end, 1), (p.end + 1, 1), (p.end + 1, p.top), (p.low - 1, 1), (p.low - 1, 2), (p.data, p.top - p.data + 1))
    o.note('read-only pages: from their first byte, from inside, from one into the next and into data')
    both((p.text + 7, 1), (p.text + 7, PAGE), (p.rodata - 1, 2), (p.rodata, 1), (p.rodata + 100, 8), (p.hole - 1, 1),
        (p.rodata + 100, 2 * PAGE))
    o.note('empty ranges, mapped or not')
    both((0, 0), (p.text - 1, 0), (p.text + 7, 0), (p.hole, 0), (p.hole + 5, 0), (p.end, 0), (p.low - 1, 0))
    o('sum')


def copies(o, p):
    o.note('copies: each that is refused ends the child')
    some = [(p.stack - 16, 16), (p.stack - 16, 17), (p.stack - 1, 2), (p.top - 1, 2), (p.top, 0), (p.top, 1), (p.top + 1, 0),
        (p.top + 1, 1), (2**63, 0), (MAX, 0), (MAX, 1), (MAX, 2), (0, 0), (0, 1), (p.text - 1, 2), (p.text + 7, 1), (p.rodata - 1, 2),
        (p.rodata + 100, 8), (p.hole - 4, 4), (p.hole - 4, 5), (p.hole, 1), (p.hole + 5, 3), (p.hole + 5, 0), (p.data - 1, 2),
        (p.data, 3), (p.end - 4, 4), (p.end - 4, 5), (p.end, 1), (p.end + 1, 1), (p.low - 1, 2), (p.low, 3)]
    for address, length in dict.fromkeys(some):
        child(o, f'from 2 {address} {length}')
        child(o, f'to 2 {address} ' + (run_of('c', length) if length else '-'))
    for address in dict.fromkeys((p.rodata + 7, p.data + 7, p.low + 7, p.stack - 7, p.top - 7, p.top, MAX)):
        child(o, f'from 2 {address} 65536')
    child(o, f'to 2 {p.data + 7} ' + run_of('c', 2 * PAGE))
    o('sum')


def strings(o, p):
    o.note('strings whose NUL is the last byte before an unmapped page, and those without one: 35 names the page\'s first byte')
    for end in (p.end, p.stack):
        o(f'to 1 {end - 3} 616200')
        o.all(*(f'string 1 {end - k} {length}' for k in (3, 1) for length in (k, k + 1, 9)))
        o(f"to 1 {end - 3} 'abc")
        o.all(*(f'string 1 {end - k} {length}' for k in (3, 1) for length in (k, k + 1, 9)))
        o.all(f'string 1 {end} 0', f'string 1 {end} 1', f'string 1 {end} 4', f'string 1 {end + 5} 4')
    o.note('over a page end inside')
    o.all(f"to 1 {p.data + PAGE - 2} 'cross", f'string 1 {p.data + PAGE - 2} 9', f'to 1 {p.data + PAGE} {run_of("k", PAGE)}',
        f'string 1 {p.data + PAGE - 2} {PAGE + 2}', f'string 1 {p.data + PAGE - 2} {PAGE + 3}', f'string 1 {p.end - 3} 4')
    o.note('in a hole, at 0, at the top and above it')
    for address in (p.hole - 1, p.hole, p.hole + 5, p.data - 1, 0, 1, p.text - 1, p.low - 1, p.top - 1, p.top, p.top + 1, 2**63,
            MAX - 1, MAX):
        o.all(f'string 1 {address} 0', f'string 1 {address} 1', f'string 1 {address} 2')
    o('sum')


def push(o, top, *lengths):
    """A push of arguments of these lengths, in a child."""
    child(o, ' '.join([f'push 2 0 {top}', *(run_of('abc'[i % 3], k) if k else '-' for i, k in enumerate(lengths))]))


def pushes(o, p):
    o.note('below address 0: 0; and just not below it')
    for top, *lengths in ((0,), (0, 0), (0, 9), (16, 0), (16, 1), (16, 20), (32, 0, 0, 0), (32, 40), (48, 9, 9, 9)):
        push(o, top, *lengths)
    for top, *lengths in ((16,), (32, 0), (32, 0, 0), (32, 1), (32, 1, 1), (32, 8), (32, 9), (48, 1, 1, 1), (48, 9, 7)):
        push(o, top, *lengths)
    o.note('at the end of the bss, of the stack and at the top: the first bytes, their NUL, the next bytes, their NUL, the null pointer')
    for end in dict.fromkeys((p.end, p.stack, p.top)):
        push(o, end)
        for top, *lengths in ((16,), (16, 0), (16, 14), (16, 15), (16, 16), (16, 40), (16, *[0] * 15), (16, *[0] * 16), (16, *[0] * 17),
                (16, 5, 14), (16, 5, 15), (16, 15, 15), (16, 15, *[0] * 16), (16, 5, 30), (16, 5, *[0] * 15), (16, 0, 15), (16, 0, 14),
                (32, 3, 20, 20), (32, 15, 31), (32,), (32, 7), (PAGE,), (PAGE, 9)):
            push(o, end + top, *lengths)
    for top in (2**63, 2**64 - 16):
        push(o, top)
        push(o, top, 0)
        push(o, top, 5, 0)
    o.note('at the start of data and of the stack: the first pointer, the null pointer, then strings that begin below')
    for start in (p.data, p.low):
        for top, *lengths in ((16,), (0,), (16, 1), (16, 0), (32, 0), (16, 3, 3), (32, 3, 3), (32, 1, 1, 1), (16, 7), (16, 15), (16, 16),
                (16, 20), (16, 0, 15), (16, 0, 14), (16, 3, 13), (0, 0), (0, 1), (0, 20)):
            push(o, start + top, *lengths)
    o.note('on read-only pages, and where one ends')
    for top, *lengths in ((p.text + 64,), (p.text + 64, 0), (p.text + 64, 9), (p.rodata + 16, 20), (p.hole, 0), (p.hole, 9),
            (p.hole + 16, 20), (p.hole + 16, 15), (p.hole + 16, 0), (p.text, 3), (p.text + 16, 20)):
        push(o, top, *lengths)
    o('sum')


def order(o):
    """Arguments longer than a page of data, bad below it and above it. And pointers on both sides of the guard page."""
    setup, base = LARGE, LARGE.utzero
    o('frames', 5 + 2 * setup.ustksize // PAGE, 9)
    hand(o, setup)
    o("start 1 'lex", shown(build(seg(5, 0, 64, 64, base=base), seg(6, 2, 64, 64, base=base), entry=base)))
    end = base + 3 * PAGE
    o.note('bad below data and above it: first the bytes, their NUL, their pointer, then those of the next')
    for lengths in ((PAGE - 40, 20), (PAGE - 12, 20), (PAGE + 8, 20), (PAGE - 2, 14), (PAGE - 12, 3), (PAGE - 12, 4), (0, PAGE, 14),
            (PAGE - 12, 0, 19), (PAGE - 31, 0, 19), (PAGE - 100, 60, 20), (0, PAGE - 2, 14)):
        push(o, end + 16, *lengths)
    o.note('the bss up to the guard page: pointers in the bss and in the guard page, strings in the stack')
    o(f'break 1 {setup.limit}')
    for top, *lengths in ((528, *[0] * 528), (544, *[0] * 528), (592, *[0] * 528), (PAGE + 640, *[0] * 528), (16, 7), (16, 20)):
        push(o, setup.low + top, *lengths)
    for top, *lengths in ((0, 9), (16, 15), (16, 20, 9), (16,), (PAGE,)):
        push(o, setup.limit + top, *lengths)
    o('sum')


def replaces(o, setup):
    p, image = places(setup), shown(build(seg(5, 0, base=setup.utzero), entry=setup.utzero))
    good, at = p.text + 1, p.data + 200
    def argv(where, *lines):
        child(o, *lines, f"replace 2 'new {image} {where}")
    def array(*pointers):
        argv(at, f'to 2 {at} ' + words(*pointers))
    o.note('the array: unmapped from its start, from the middle of a pointer, at the top, above it')
    for where in (0, p.text - 8, p.text - 4, p.hole - 8, p.hole - 4, p.hole, p.hole + 5, p.data - 4, p.end - 4, p.end, p.low - 4,
            p.stack - 8, p.stack - 4, p.stack, p.top - 4, p.top, p.top + 1, 2**63, MAX - 7, MAX):
        argv(where)
    o.note('its third pointer on an unmapped page, or in part')
    for end in (p.end, p.stack):
        for less in (0, 1, 4, 7):
            argv(end - 16 - less, f'to 2 {end - 16 - less} ' + words(good, good))
        argv(end - 24, f'to 2 {end - 24} ' + words(good, good, 0))
        argv(end - 8, f'to 2 {end - 8} ' + words(good))
    o.note('the first string, and the second, on an unmapped page, at the top, above it')
    for string in (1, p.text - 1, p.hole, p.hole + 5, p.data - 1, p.end, p.end + 9, p.low - 1, p.stack, p.top, p.top + 1, 2**63, MAX):
        array(string, 0)
        array(good, string, 0)
    o.note('strings that run into one: 35 names its first byte; and those that end before it')
    for end in (p.end, p.stack):
        for string in ('616263', '616200'):
            argv(at, f'to 2 {end - 3} {string}', f'to 2 {at} ' + words(good, end - 3, 0))
            argv(at, f'to 2 {end - 3} {string}', f'to 2 {at} ' + words(end - 1, 0))
    o.note('reading order: a string before the next pointer, a pointer before its string, the first of two strings')
    argv(p.end - 8, f'to 2 {p.end - 8} ' + words(p.hole + 5))
    argv(p.end - 16, f'to 2 {p.end - 16} ' + words(good, p.hole + 5))
    argv(p.end - 16, f'to 2 {p.end - 16} ' + words(good, good))
    array(good, p.end + 7, p.hole + 5)
    array(p.hole + 5, p.end + 7)
    array(MAX, 1)
    o('sum')


def forks(o, setup):
    p, image = places(setup), program(setup)
    def look(n):
        o.all(*(f'range {n} {a} {k} {access}' for a, k in ((p.data, p.end - p.data + 1), (p.end - 1, 2), (p.rodata + 9, 1), (p.hole - 1, 2),
            (p.data + PAGE - 1, 2), (p.end, 1)) for access in 'rw'), f'string {n} {p.end} 2')
    o.note("a child's pages decide for it, the parent's for the parent")
    o('fork 1 2')
    look(2)
    o.all(f'break 1 {p.end + PAGE}', f'break 2 {p.data + PAGE}')
    look(1)
    look(2)
    o.note('the same of a child whose parent is replaced, or ended, and whatever another process does')
    o.all(f"to 1 {p.data} " + words(0), f"replace 1 'new {shown(build(seg(5, 0, base=setup.utzero), entry=setup.utzero))} {p.data}")
    look(1)
    look(2)
    o.all(f'from 1 {MAX} 2')
    look(2)
    o.all(f"start 3 'lex {image}", f'break 3 {p.end + PAGE}', f"to 3 {p.end} 'other", f'push 3 0 {p.data} 61')
    look(2)
    o.all(f'from 2 {p.data} {p.end - p.data + 1}', 'sum')


def cases(o, setup):
    p = places(setup)
    begin(o, setup)
    ranges(o, p)
    copies(o, p)
    strings(o, p)
    pushes(o, p)
    replaces(o, setup)
    forks(o, setup)


def addresses():
    o = Out('addresses', 'Bad addresses: which one a range, a copy, a string, a push and an argv array name.')
    cases(o, DEPOSIT)
    return o


def address_sets():
    o = Out('address-sets', "Bad addresses under other sets of the machine's numbers: the top is the set's UADDRTOP.")
    cases(o, SCHOOL)
    cases(o, HIGHER)
    for setup in FAR:
        begin(o, setup)
        ranges(o, places(setup))
        strings(o, places(setup))
    order(o)
    return o
