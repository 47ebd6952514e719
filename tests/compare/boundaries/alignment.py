"""Request 1: the alignment field, by start and replace."""
import os
import struct

from elf import change, header
from rules.flags import BUILT_IN
from rules.image import parse
from rules.machine import MAX, PAGE, down, up
from script import shown

from .built import H1, H2, build, data, example, many, phdr, seg, text
from .out import BSS, BSS_END, DATA, E, TEXT, TOP, UTZERO, Out, count, lend, run_of, words

# One header at 48 whose offset is the count, 1: text of four bytes at 65,537; its alignment is at 96.
SHORTEST = header(UTZERO + 4, 1, 48)[:48] + struct.pack('<IHH6Q', 1, 5, 56, 1, UTZERO + 1, 0, 4, 4, 0)
PROGRAMS = 'tests/images/programs/'
ROOT = os.path.dirname(os.path.dirname(os.path.dirname(os.path.dirname(os.path.abspath(__file__)))))
# Values that are fine whatever the address is, and values that never are.
FINE = 0, 1, 2, 4, 2048, PAGE
WRONG = 3, 5, 6, 7, 17, PAGE - 1, PAGE + 1, 3 * PAGE, 65535, 65537, 2**32 + 1, 2**32 + PAGE, 2**63 + 1, 2**64 - PAGE, MAX


def fields(o):
    def start(*images):
        """Each by itself: `sum` says that a refusal left all as it was."""
        for image in images:
            o("start 1 'x", shown(image))
            o('sum')
            o('end 1')

    o('frames 9 7')
    o('sum')
    o.note("the example's text header: address 65,536, offset 0")
    start(*(text(align=v) for v in FINE + (8192, 32768, 65536)))
    start(*(text(align=v) for v in WRONG + (2**17, 2**31, 2**32, 2**47, 2**63)))
    o.note('its data header: address 69,812, offset 180, which 17 * 4,096 lies between')
    start(*(data(align=v) for v in FINE))
    start(*(data(align=v) for v in WRONG + (8192, 65536, 17 * PAGE, 2**32, 2**63)))
    o.note('data that agrees modulo 8,192, 65,536, 2^20 and 2^46, and the next power')
    for page, power in (18, 13), (32, 16), (240, 20), (2**34 - 16, 46):
        start(*(build(seg(5, 0), seg(6, page, at=64, align=2**k)) for k in (power - 1, power, power + 1)),
            build(seg(5, 0), seg(6, page, at=64, align=2**power + 1)))
    o.note('agreement modulo 4,096 remains: the address is 2,048 or 16 further')
    start(*(data(vaddr=69812 + d, align=v) for d in (16, 2048) for v in (0, 1, 2, 16, 2048, PAGE, 65536)))
    o.note('a header that is skipped is not judged: another type, memory size 0; memory size 1 is')
    start(*(data(kind=k, align=v) for k in (0, 2) for v in (3, 65536, MAX)), *(data(memsz=0, align=v) for v in (3, 65536, MAX)),
        data(filesz=0, memsz=1, align=3), data(filesz=0, memsz=1, align=65536), data(filesz=0, memsz=1))
    o.note('each header has its own field')
    start(*(phdr(H1, data(align=second), align=first) for first, second in (
        (65536, PAGE), (65536, 0), (PAGE, 65536), (65536, 65536), (3, PAGE), (PAGE, 3), (2**17, 1), (1, 2**17), (8192, 2048))))
    o.note('an image of 104 bytes, the table inside its file header')
    start(*(change(SHORTEST, 96, 8, v) for v in (1, 3, PAGE, 65536, 2**17)))
    o.note('the physical address is not asked')
    start(example((H1 + 24, 8, 1), (H2 + 24, 8, MAX)), example((H2 + 24, 8, 180), (H2 + 48, 8, 65536)),
        example((H1 + 24, 8, DATA), (H1 + 48, 8, 65536)))


def start_order(o):
    """28 is one of the numbers that 30 stands for."""
    bad = data(align=65536)
    o.note('start: 1 to 5, then 32, 33 of the arguments, 30 for 28, 31, 33 of the frames')
    o.fresh(frames=9)
    o.text(f"""
        start 0 'x {shown(bad)}
        start 17 'x {shown(bad)}
        start 1 'x {shown(bad)}
        start 2 'x {shown(bad)} 00
        start 2 'x {shown(bad)} {run_of('a', 4072)}
        start 2 'x {shown(bad)} {run_of('a', 4071)}
        start 2 'x {shown(many(16, seg(4, 16, align=3)))}
        start 2 'x {shown(many(16))}
        start 2 'x {shown(data(memsz=2**40, align=65536))}
        start 2 'x {shown(data(memsz=2**40))}
        {lend(8)}
        start 2 'x {shown(bad)}
        lend 1 1
        start 2 'x {shown(bad)}
        {lend(9)}
        word {count(0)} 2
        start 2 'x {shown(bad)}
        word {count(0)} 0
        start 2 'x {shown(bad)}
        sum
    """)


def replaced(o):
    o.note('replace: 30, and the process lives; before a bad array and too few frames')
    o.fresh(frames=9, args=(b'lex',))
    o.all(f"to 1 {BSS} 'kept", 'sum')
    for image in (*(data(align=v) for v in (3, PAGE + 1, 8192, 65536, 2**63, 2**63 + 1, MAX)), *(text(align=v) for v in (6, 2**17)),
            data(memsz=2**40, align=65536), many(16, seg(4, 16, align=3))):
        o(f"replace 1 'y {shown(image)} {TOP - 24}")
        o('sum')
    o.text(f"""
        replace 1 'y {shown(data(align=3))} 1
        replace 2 'y {shown(data(align=3))} {TOP - 24}
        replace 0 'y {shown(data(align=3))} {TOP - 24}
        from 1 {BSS} 4
        sum
    """)
    o.note('alignments that are fine: the new program with the old argument')
    for image in (text(align=65536), data(align=0), data(align=1), data(align=2048), data(memsz=0, align=3)):
        o(f"replace 1 'z {shown(image)} {TOP - 24}")
        o.all('sum', f'from 1 {TEXT} 8', f'from 1 {TOP - 24} 24')
    o.note('the example with 65,536 on its text header reads as the example does')
    for n, image in (2, E), (3, shown(text(align=65536))):
        o('frames 7 9')
        o(f"start {n} 'x {image} 'lex")
        o.all(*(f'from {n} {a} {k}' for a, k in ((TEXT, 64), (TEXT + 176, 16), (DATA - 4, 8), (DATA + 176, 16), (BSS_END - 8, 8))))
        o.all(f'break {n} 0', f'map {n}')


def read_back(o, n, image):
    """What a process reads at the ends of its program's segments and their pages."""
    for s in parse(image, BUILT_IN)[1]:
        end = s.vaddr + len(s.file)
        for a, k in ((down(s.vaddr), 8), (s.vaddr - 8, 24), (s.vaddr + len(s.file) // 2, 24), (end - 8, 24), (up(end) - 8, 8)):
            o('from', n, max(a, down(s.vaddr)), k)
        o('range', n, down(s.vaddr) - 1, 1, 'r')
        o('range', n, up(s.end), 1, 'r')
        o('range', n, s.vaddr, 1, 'w')
    o.all(f'break {n} 0', f'map {n}')


def linked(o):
    """Programs of the GNU linker with 65,536 in both headers."""
    for name in 'data-default', 'wide-default':
        path = PROGRAMS + name
        with open(os.path.join(ROOT, path), 'rb') as f:
            image = f.read()
        o.note(name + ', by its path; then by replace, with no arguments: behind the pointer to its argument stands a null')
        o('frames 16 6')
        o(f"start 1 '/bin/{name} @{path} 'lex")
        o('sum')
        read_back(o, 1, image)
        o(f"replace 1 'again @{path} {TOP - 16}")
        o('sum')
        read_back(o, 1, image)
        if name == 'data-default':
            o.note('as bytes, its data header asking for 131,072; then as they are')
            more = change(image, int.from_bytes(image[32:40], 'little') + 56 + 48, 8, 2**17)
            for n, b in (2, more), (3, image):
                o(f"start {n} '/bin/{name} {shown(b)} 'lex")
                o('sum')
            read_back(o, 3, image)


def alignment():
    o = Out('alignment', 'Alignments: the field at its boundaries, by start and replace; programs of a linker that writes 65,536.')
    fields(o)
    start_order(o)
    replaced(o)
    linked(o)
    return o
