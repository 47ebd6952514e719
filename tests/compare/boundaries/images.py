"""Images: each boundary of checks 11 to 28, 30 and 31."""
from elf import header
from rules.machine import MAX, PAGE
from random_images import EXAMPLE
from script import shown

from .built import H1, H2, build, data, example, long_image, many, phdr, seg, text
from .out import LIMIT, LOW, TOP, UTZERO, Out


def groups():
    """Images, each few under what they show."""
    out = []
    def add(note, *some):
        out.append((note, list(some)))
    add('the example', EXAMPLE)
    add('11: under 64 bytes', b'', EXAMPLE[:1], EXAMPLE[:63])
    add('64 bytes: zeros give 12, the header without its table 20', bytes(64), EXAMPLE[:64])
    add('12: each of the first four bytes', *(example((k, 1, EXAMPLE[k] ^ 1)) for k in range(4)))
    add('13', *(example((4, 1, v)) for v in (0, 1, 3, 130)))
    add('14', *(example((5, 1, v)) for v in (0, 2, 129)))
    add('15: byte 6, and the whole word at 20', *(example((6, 1, v)) for v in (0, 2, 129)),
        *(example((20, 4, v)) for v in (0, 2, 257, 1 + 2**24, 2**32 - 1)))
    add('16: the whole half-word', *(example((16, 2, v)) for v in (0, 1, 3, 258)))
    add('17: the whole half-word', *(example((18, 2, v)) for v in (0, 62, 182, 184, 183 + 256)))
    add('18: the whole half-word', *(example((54, 2, v)) for v in (0, 55, 57, 56 + 256)))
    add('19', *(example((24, 8, 65712 + k)) for k in (1, 2, 3, -1)))
    faults = [(0, 4, 0), (4, 1, 1), (5, 1, 2), (6, 1, 0), (16, 2, 3), (18, 2, 62), (54, 2, 55), (24, 8, 65713),
        (56, 2, 9)]
    add('order: each fault of 12 to 20 with all later ones', *(example(*faults[k:]) for k in range(len(faults))))
    add('order: 20 before any program header, 19 before 20', example((56, 2, 3), (H1 + 4, 4, 7)),
        example((56, 2, 3), (24, 8, 1)))
    add('20: the table ends with the image, then one byte further', EXAMPLE[:176], EXAMPLE[:175],
        example((32, 8, 72)), example((32, 8, 73)))
    add('20: one header more than there is room for', example((56, 2, 3)), example((56, 2, 65535)))
    add('20: sums past 2^64', *(example((32, 8, v)) for v in (MAX, 2**64 - 112, 2**64 - 111, 2**64 - 56, 2**63)))
    add('no headers: table offset at the image length gives 27, one further 20',
        header(UTZERO, 0), header(UTZERO, 0, 65), header(UTZERO, 0, 0), header(UTZERO, 0, MAX), header(UTZERO, 0, 63))
    add('21: file size equal to memory size passes, one above does not', data(memsz=4), data(memsz=3),
        data(filesz=8001), data(filesz=MAX), data(filesz=MAX, memsz=MAX))
    add('22: file bytes up to the image length pass', data(offset=180, filesz=4), data(filesz=5), data(filesz=3),
        text(filesz=184, memsz=184), text(filesz=185, memsz=185))
    add('22: file size 0 at the image length passes, one further does not', data(offset=184, vaddr=69816, filesz=0),
        data(offset=185, vaddr=69817, filesz=0))
    add('22: offset + file size past 2^64', data(offset=2**64 - 4, filesz=4), data(offset=MAX, filesz=1, vaddr=73727),
        data(offset=2**64 - PAGE + 180, filesz=4), data(offset=2**63, filesz=4))
    add('order: 21 before 22, 22 before 23, 23 before 24, 24 before 25, 25 before 26',
        data(filesz=9000, offset=185), data(offset=181), data(offset=180, vaddr=MAX - 2, filesz=4),
        data(vaddr=2**64 - PAGE + 180, memsz=PAGE, flags=7), data(vaddr=65716, flags=7))
    add('23: address and offset differ modulo 4,096', data(vaddr=69813), data(vaddr=69811), data(vaddr=69812 + PAGE),
        data(vaddr=69812 + 2048), data(offset=179), text(vaddr=65537))
    add('28: alignments of the text, whose address and offset agree modulo 65,536',
        *(text(align=v) for v in (0, 1, 2, 3, PAGE, PAGE + 1, 65535, 65536, 65537, 2**17, 2**32, 2**32 + PAGE, 2**63, MAX)))
    add('28: of the data, whose address and offset agree modulo 4,096',
        *(data(align=v) for v in (0, 1, 2, 3, 6, 17, 2048, PAGE - 1, PAGE, PAGE + 1, 8192, 65536, 69632, 2**63, 2**63 + 1, MAX)))
    add('23 for any alignment; order: 22 before 23, 23 before 28, 28 before 24, 25 and 26',
        *(data(vaddr=69812 + 2048, align=v) for v in (0, 1, 2, 3, 2048, PAGE, 65536)), data(filesz=5, align=3),
        data(memsz=MAX, align=3), data(flags=7, align=3), data(vaddr=65716, align=3), data(vaddr=65716, align=2**17))
    add('order: 28 before 27; of two headers, the first decides', phdr(H2, example((24, 8, 0)), align=3),
        phdr(H1, data(filesz=9000), align=3), phdr(H1, data(align=3), flags=7), phdr(H2, text(filesz=181), align=3))
    far = 2**64 - PAGE
    add('24: an end of 2^64 - 4,096 passes (and gives 30), one more does not',
        data(vaddr=far - PAGE + 180, memsz=PAGE - 180), data(vaddr=far - PAGE + 180, memsz=PAGE - 180 + 1),
        data(vaddr=far + 180, memsz=4), data(vaddr=far + 180, memsz=PAGE - 181),
        data(vaddr=far + 180, memsz=PAGE - 180), data(vaddr=far + 180, memsz=PAGE), data(memsz=MAX),
        data(memsz=2**64 - 69812), data(memsz=2**64 - 69812 - PAGE), data(memsz=2**64 - 69812 - PAGE + 1))
    add('25: the eight values of the low three bits, in data and text', *(data(flags=k) for k in range(8)),
        *(text(flags=k) for k in range(8)))
    add('flags 13 are text, 14 data, 12 rodata; higher bits do not count', text(flags=13), data(flags=14),
        data(flags=12), text(flags=2**32 - 3), data(flags=2**32 - 2), data(flags=15))
    add('an empty header is skipped before its other checks', data(flags=7, memsz=0),
        data(memsz=0, filesz=9, offset=MAX, vaddr=1), text(memsz=0, flags=0), data(memsz=0, align=3), data(memsz=0, align=65536))
    add('a header of another type is skipped before its other checks',
        *(data(kind=k, flags=7, filesz=MAX) for k in (0, 2, 6, 257, 2**31 + 1)), data(kind=2, align=3), data(kind=2, align=65536))
    add('26: next page passes, the same page does not', data(vaddr=69632 + 180), data(vaddr=65536 + 180),
        data(vaddr=180), text(memsz=PAGE), text(memsz=PAGE + 1), text(memsz=2 * PAGE))
    add('26: below the first of three; equal to its page',
        build(seg(5, 1), seg(4, 2), seg(4, 0), entry=UTZERO + PAGE), build(seg(5, 0), seg(4, 2), seg(4, 1)),
        build(seg(5, 0), seg(4, 2), seg(4, 2)), build(seg(5, 0), seg(4, 1), seg(4, 2)))
    add('27: the first and the last place in the text, the place after it, memory past the file bytes',
        example((24, 8, 65536)), example((24, 8, 65532)), example((24, 8, 65716)),
        phdr(H1, example((24, 8, 65716)), memsz=200), phdr(H1, example((24, 8, 65712)), filesz=177, memsz=200),
        phdr(H1, example((24, 8, 65712)), filesz=176))
    add('27: an entry in data or rodata, in a second text, in a text without file bytes', example((24, 8, 69812)),
        build(seg(4, 0), seg(5, 1)), build(seg(5, 0), seg(5, 1), entry=UTZERO + PAGE + 4), build(seg(5, 0, 0)))
    add('27 after every header: a fault of the last header comes before it', example((24, 8, 0), (H2 + 4, 4, 7)))
    add('30: from UTZERO on', build(seg(5, -1), entry=UTZERO - PAGE), build(seg(4, -16), seg(5, 0)),
        build(seg(4, -1, 8, 2 * PAGE - 40, at=40), seg(5, 1), entry=UTZERO + PAGE), build(seg(5, 0)))
    top = LIMIT - PAGE
    add('30: up to limit, for each kind',
        *(data(flags=f, vaddr=top + 180, filesz=4, memsz=PAGE - 180 + k) for f in (4, 5, 6) for k in (-1, 0, 1)))
    add('30: ends above the stack, at 2^47 and past it', data(vaddr=LIMIT + 180, memsz=8),
        data(vaddr=LOW + 180, memsz=8), data(vaddr=TOP + 180, memsz=8),
        data(vaddr=TOP - PAGE + 180, memsz=PAGE - 180))
    add('30: nothing follows data', *(build(seg(5, 0), seg(6, 1), seg(f, 2)) for f in (4, 5, 6)),
        build(seg(6, 0), seg(5, 1), entry=UTZERO + PAGE), build(seg(5, 0), seg(6, 1), seg(4, 2, memsz=0)),
        build(seg(5, 0), seg(6, 1), seg(4, 2, kind=2)))
    add('order: 30 before 31, 27 before 30', many(16, (6, 0, 2 * LIMIT, 1, 1)), many(16, (4, 0, LIMIT, 1, 1)),
        build(seg(4, -16), seg(4, 0)))
    add('31: fifteen segments pass, sixteen do not', many(15), many(16), many(17))
    add('31: an empty data range is dropped before the count, an empty header too', many(15, seg(6, 15, 0)),
        many(15, seg(6, 15, 1)), many(15, seg(4, 15, 1, 0)), many(16, seg(6, 16, 0)))
    add('bss: file size equal to memory size; up to the page end and one past it', data(filesz=4, memsz=4),
        data(memsz=73728 - 69812), data(memsz=73728 - 69812 + 1))
    add('bss: data without file bytes, its page aligned or not', build(seg(5, 0), seg(6, 1, 0, 1)),
        build(seg(5, 0), seg(6, 1, 0, PAGE)), build(seg(5, 0), seg(6, 1, 0, PAGE + 1)),
        build(seg(5, 0), seg(6, 1, 0, 1, at=1)))
    add('bss: none without data; the page end of the last segment', build(seg(5, 0)), build(seg(5, 0, 8, PAGE)),
        build(seg(5, 0, 8, PAGE + 1)), build(seg(5, 0), seg(4, 5)))
    add('memory that no frames hold', data(memsz=LIMIT - 69812), data(memsz=2**40), text(memsz=2**45),
        build(seg(5, 0, 8, LIMIT - UTZERO)))
    return out


def images():
    o = Out('images',
        'Images at the boundaries of checks 11 to 28, 30 and 31, by start; frames as before after a refusal.')
    o('frames 24 7')
    for note, some in groups():
        o.note(note)
        for image in some:
            o('start', 1, "'x", shown(image))
            o('end 1')
        o('sum')
    o.note('pages of file bytes, of zeros, and of both')
    o('start', 2, "'long", shown(long_image()))
    for a, k in ((UTZERO, 104), (UTZERO + PAGE - 4, 8), (UTZERO + PAGE + 140, 16), (UTZERO + 2 * PAGE + 3990, 16),
            (UTZERO + 3 * PAGE - 4, 8), (UTZERO + 3 * PAGE + 90, 20), (UTZERO + 4 * PAGE, 16),
            (UTZERO + 5 * PAGE, 16), (UTZERO + 6 * PAGE - 4, 8), (UTZERO + 6 * PAGE + 96, 16),
            (UTZERO + 7 * PAGE, 16)):
        o('from', 2, a, k)
    o.text(f"""
        sum
        break 2 0
        map 2
    """)
    return o
