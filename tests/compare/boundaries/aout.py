"""Plan 9 a.outs: what their reader gives by itself, and calls that take them."""
from aout import EXAMPLE, HEADER, HEADER_BIT, MAGIC, build, change, example_at, word
from model import read_line
from rules.flags import BUILT_IN, REFUSED
from rules.machine import MAX, PAGE, RODATA, up
from rules.setup import DEPOSIT, Setup
from random_images import EXAMPLE as ELF
from script import shown

from .flags import PARTNER, give, table, with_row
from .out import BSS_END, DATA, LIMIT, LOW, TOP, UTZERO, Out, lend, words
from .sets import hand, smallest

# The example's process: text from 65536, data from 69632, bss 69636 to 77824, 7 pages with the stack.
FILE = 'aout=%d @tests/compare/example.aout' % MAGIC
E = '@tests/compare/example.elf'
FIRST, BSS = UTZERO + HEADER, DATA + 4
TEXT = EXAMPLE[HEADER:HEADER + 8]
SMALL = build(TEXT, b'data', 100)           # 44 bytes
MOST = 2**32 - 1
TURNED = int.from_bytes(MAGIC.to_bytes(4, 'big'), 'little')


def said(image, magic=MAGIC):
    """An a.out in a line: its form and its bytes."""
    return 'aout=%d %s' % (magic, shown(image))


def all_of(number, *images):
    """Images for which the reader gives one number, 0 for those that it accepts."""
    return [(number, MAGIC, image) for image in images]


def with_entry(number, *entries, image=SMALL):
    return all_of(number, *(change(image, entry=entry) for entry in entries))


def groups():
    """Under what they show: images, each with the number that the reader gives by the rules, and the magic that is expected."""
    yield 'text alone, with data, with bss, with both, and with symbols behind them', all_of(
        0, build(TEXT), build(TEXT, b'data'), build(TEXT, b'', 1), build(TEXT, b'data', 1), EXAMPLE)
    yield '42: under 32 bytes; the header alone is 27 where it says no text, 43 where it says some', [
        *all_of(42, b'', EXAMPLE[:1], EXAMPLE[:4], EXAMPLE[:31], build(b'')[:31]), *all_of(27, build(b'')), *all_of(43, EXAMPLE[:32])]
    bit = MAGIC + HEADER_BIT
    yield '42: another magic in the file, and another one expected', [
        *all_of(42, *(change(SMALL, magic=other) for other in (
        MAGIC - 1, MAGIC + 1, bit, MAGIC + 2**16, MAGIC + 2**24, MAGIC + 2**31, TURNED, 0, MOST))),
        *((42, other, SMALL) for other in (MAGIC - 1, bit, TURNED, 0)), (42, MAGIC, ELF), (43, int.from_bytes(ELF[:4], 'big'), ELF)]
    yield 'any magic of 32 bits, if it is the one that is expected', [
        (0, magic, change(SMALL, magic=magic)) for magic in (bit, 0, 2**31, TURNED, MOST)]
    yield '43: up to the image length, one byte short, cut anywhere; over-long files', [
        *all_of(0, SMALL, SMALL + b'x', SMALL + bytes(range(1, 40))), *all_of(43, *(SMALL[:k] for k in (43, 41, 40, 39, 33))),
        *all_of(0, build(TEXT), build(TEXT) + b'x'), *all_of(43, build(TEXT)[:-1])]
    yield '43: each size one less, as it is and one more; one for the other', [
        *((number, MAGIC, change(SMALL, text=text, data=data)) for number, text, data in (
        (0, 7, 4), (0, 8, 3), (0, 7, 5), (0, 9, 3), (0, 12, 0), (0, 1, 11), (43, 9, 4), (43, 8, 5), (43, 13, 0), (43, 0, 13),
        (27, 0, 12)))]
    yield '43: exact sums, past 2^32 and past 2^33', all_of(43, *(change(SMALL, text=text, data=data) for text, data in (
        *((2**32 - HEADER + k, 0) for k in (-1, 0, 12, 31)), *((2**32 - HEADER - 4 + k, 4) for k in (-1, 0, 1)),
        *((8, 2**32 - HEADER - 8 + k) for k in (-1, 0, 1, 12, 13, 39)), (2**31, 2**31), (2**31 - 16, 2**31 - 16), (2**31 - 20, 2**31),
        (MOST, MOST), (MOST, 13), (2**31, 0), (8, 2**31), (2**24, 4), (8, 2**24))))
    yield 'each number before the later ones', [
        *all_of(42, change(SMALL, magic=0, text=13, entry=1), change(SMALL, magic=0, entry=FIRST + 1)),
        *all_of(43, *(change(SMALL, text=9, entry=entry) for entry in (FIRST + 1, FIRST - 4, MOST)), change(SMALL, data=5, entry=3),
        change(SMALL, text=0, data=13, entry=3)), *with_entry(19, 1, 2, 3, UTZERO - 1, UTZERO + 1, FIRST - 1, FIRST + 9, MOST),
        *all_of(19, change(SMALL, text=0, entry=FIRST + 1))]
    yield '19', [*with_entry(19, *(FIRST + k for k in (1, 2, 3, 5, 6, 7))), *with_entry(0, FIRST + 4)]
    yield '27: the first and the last instruction; the header before them and the place behind them', [
        *with_entry(0, FIRST, FIRST + 4), *with_entry(27, FIRST - 4, FIRST + 8, UTZERO, UTZERO - 4, UTZERO - HEADER, 0, HEADER),
        *with_entry(27, FIRST + 12, UTZERO + PAGE - 4, UTZERO + PAGE, UTZERO + PAGE + HEADER, 2**31 + FIRST, 2**32 - 4)]
    yield '27: text that ends inside an instruction', [
        *all_of(0, *(build(TEXT[:k]) for k in (1, 3, 4))), *with_entry(27, FIRST + 4, image=build(TEXT[:3])),
        *with_entry(27, FIRST + 4, image=build(TEXT[:4])), *with_entry(0, FIRST + 4, image=build(TEXT[:5])),
        *with_entry(27, FIRST + 8, image=build(TEXT)), *with_entry(0, FIRST + 8, image=build(TEXT + b'x'))]
    yield '27: a text of 0, whatever the entry is', [
        *with_entry(27, FIRST, FIRST - 4, UTZERO, 0, image=build(b'')), *all_of(27, build(b'', b'data', 100)),
        *with_entry(27, UTZERO + PAGE, image=build(b'', b'data'))]
    yield 'syms, spsz and pcsz with nonsense in them', all_of(
        0, change(SMALL, syms=MOST), change(SMALL, spsz=MOST), change(SMALL, pcsz=MOST),
        *(change(SMALL, syms=value, spsz=value, pcsz=value) for value in (1, 2**31, MOST)))
    yield 'data and bss up to a page end, one less, one more; bss alone; both 0', all_of(0, *(
        build(TEXT, data, bss) for data, bss in (
        (b'data', 0), (b'data', 4091), (b'data', 4092), (b'data', 4093), (b'data', 8188), (b'data', 8189), (b'', 1), (b'', 4096),
        (b'', 4097), (b'', 8192), (b'', 8193), (b'', 0))))
    yield 'memory that no frames hold: exact sums too', all_of(0, *(change(SMALL, bss=bss) for bss in (
        2**24, 2**31 - 1, 2**31, 2**32 - 5, 2**32 - 4, 2**32 - 3, MOST)), build(TEXT, b'', MOST))


def linked():
    """Images under other values of UTZERO, each with the number, UTZERO, and itself."""
    for base in (PAGE, 2**31, 2**32 - PAGE):
        small = change(SMALL, entry=base + HEADER)
        yield from ((0, base, small), (27, base, SMALL), (27, UTZERO, small))
        yield from ((number, base, change(small, entry=base + at)) for number, at in ((27, 28), (19, 33), (0, 36), (27, 40)))
    for base in (2**32, 2**47 - 3 * PAGE):
        yield from ((27, base, change(SMALL, entry=base + at)) for at in (28, 32, 36))


def reader():
    """What the reader gives by itself: lines, and the model's answers, whose numbers are those that stand here. Images that are
    accepted are told by calls, so there are few of them."""
    lines, answers = ['# The reader of a.outs by itself: the magic that is expected, UTZERO, the image. Written by directed.py.'], []
    cases = [(note, [(number, magic, UTZERO, image) for number, magic, image in some if i == 0 or number != 0])
             for i, (note, some) in enumerate(groups())]
    cases.append(('under other values of UTZERO', [(number, MAGIC, base, image) for number, base, image in linked()]))
    for note, some in cases:
        if some:
            lines.append('# ' + note)
        for number, magic, base, image in some:
            line = '%d %d %s' % (magic, base, shown(image))
            answer = read_line(line.encode())
            assert answer.startswith('refused %d' % number if number else 'ok '), (note, line, answer)
            lines.append(line)
            answers.append(answer)
    return lines, answers


def each(o):
    """Every image by start; frames as before after a refusal."""
    o('frames 8 7')
    for note, some in groups():
        o.note(note)
        for number, magic, image in some:
            o('start', 1, "'x", said(image, magic))
            if number == 0 and word(image, 'bss') < 2**24:
                o.all('sum', 'end 1')
        o('sum')


def parts(o):
    """Reads of every part of the pages."""
    o.note('the header, text, zeros up to the page end, data, zeros from there on; text is not written')
    o('frames 9 9')
    o(f"start 1 '/bin/lex {FILE} 'lex")
    o.all('map 1', *(f'from 1 {a} {k}' for a, k in (
        (UTZERO, HEADER), (FIRST, 8), (FIRST + 6, 12), (DATA - 8, 16), (BSS, 16), (DATA + PAGE - 8, 16), (BSS_END - 8, 8))))
    for a, k in ((UTZERO, 1), (UTZERO, PAGE), (DATA - 1, 1), (DATA - 1, 2), (DATA, 1), (BSS, 1), (DATA, 2 * PAGE),
            (DATA, 2 * PAGE + 1)):
        o.all(f'range 1 {a} {k} r', f'range 1 {a} {k} w')
    o.note('strings in the header, the text, over its end, in data and over its end')
    for a, k in ((UTZERO, 4), (UTZERO + 2, 9), (FIRST, 4), (FIRST, 9), (FIRST + 4, 3), (FIRST + 4, 9), (FIRST + 8, 4), (DATA, 3),
            (DATA, 4), (DATA, 9), (UTZERO - 1, 3), (BSS_END, 1)):
        o(f'string 1 {a} {k}')
    o.all(f"to 1 {BSS} 'more", f'string 1 {DATA} 20', f"to 1 {BSS_END - 3} 'end", f'string 1 {BSS_END - 3} 3',
        f'string 1 {BSS_END - 3} 4', 'sum', f'push 1 {FIRST} {BSS_END - 16} 61', f'from 1 {BSS_END - 48} 48', f'to 1 {FIRST} 61',
        'sum', 'break 1 0')


def long_bytes(count):
    return bytes(1 + (k * 7 + k // 251) % 255 for k in range(count))


def pages(o):
    """Texts that end with a page, at 2^32, and one byte later."""
    for base, size, entry in ((2**32 - PAGE, PAGE - HEADER, 2**32 - 4), (UTZERO, PAGE - HEADER + 1, UTZERO + PAGE)):
        end = base + HEADER + size
        data = up(end)
        o.note('header and text of %d bytes from %d on; data from %d on' % (HEADER + size, base, data))
        o('frames 8 9')
        hand(o, DEPOSIT._replace(utzero=base))
        o('start', 1, "'x", said(build(long_bytes(size), b'data', 4, b'symbols', base, entry=entry)))
        o.all('map 1', 'sum', f'from 1 {end - 4} 8', f'from 1 {data - 4} 16', f'string 1 {end - 3} 20', f'range 1 {data - 1} 1 w',
            f'range 1 {data} 1 w', 'break 1 0', 'end 1')


def breaks(o):
    """The break of a process with data, with bss alone and with neither."""
    for note, image, start, end in (
            ('data and bss', EXAMPLE, BSS, BSS_END), ('data alone', build(TEXT, b'data'), BSS, DATA + PAGE),
            ('bss alone', build(TEXT, b'', 5000), DATA, BSS_END), ('neither', build(TEXT), DATA, DATA)):
        o.note('break: ' + note)
        o('frames 9 9')
        o('start', 1, "'x", said(image))
        o.all('map 1', *(f'break 1 {a}' for a in dict.fromkeys([
            0, 1, UTZERO, start - 1, start, start + 1, DATA + PAGE, DATA + PAGE + 1, end - 1, end, end + 1, end + 2 * PAGE,
            end + 9 * PAGE, LIMIT - 1, LIMIT, LIMIT + 1, TOP, MAX])), 'sum')
        o.all(f'break 1 {BSS_END}', f"to 1 {DATA + PAGE - 4} 'borders", f'break 1 {max(start, DATA + 9)}', f'from 1 {DATA} 8',
            f'from 1 {DATA + PAGE - 4} 4', f'break 1 {BSS_END}', f'from 1 {DATA + PAGE - 4} 8', 'break 1 0', 'sum')


def forks(o):
    """A fork shares header and text, and copies the rest."""
    for note, image, copied in (('data and bss', EXAMPLE, 6), ('bss alone', build(TEXT, b'', 5000), 6), ('neither', build(TEXT), 4)):
        o.note('fork: %s, with frames for what it copies, and one less' % note)
        for frames in (2 * copied + 1, 2 * copied):
            o('frames', frames, 9)
            o('start', 1, "'x", said(image))
            o.all('fork 1 2', 'map 2', 'sum')
    o.note('both read the text and each its own data; a list is the record as it is')
    o('frames 20 9')
    o(f"start 1 'x {FILE}")
    o.all(f'fork 1 2 {UTZERO} {DATA} 1 {DATA} {DATA + PAGE} 3', f'fork 1 2 {UTZERO} {DATA} 1 {DATA} {DATA + PAGE} 3 {LOW} {TOP} 3',
        f"to 2 {DATA} 'CHILD", f'from 1 {DATA} 8', f'from 2 {DATA} 8', f'from 2 {UTZERO} 40', 'end 1', f'string 2 {FIRST + 4} 9',
        f"start 1 'y {E}", 'fork 1 3', 'fork 2 4', 'map 4', 'sum', f'to 4 {UTZERO} 00', 'map 2', 'sum')


def replaced(o):
    """Replace, between the two forms and from each to itself."""
    o.note('an ELF process, then an a.out, then another, then ELF; the arguments of the first start go along')
    o('frames 8 9')
    o(f"start 1 'elf {E} 'lex 'mot")
    for name, image in (('aout', FILE), ('text', said(build(TEXT))), ('bss', said(build(TEXT, b'', 5000))),
            ('bit', said(change(EXAMPLE, magic=MAGIC + HEADER_BIT), MAGIC + HEADER_BIT)), ('elf', E), ('long', FILE)):
        o(f"replace 1 '/bin/{name} {image} {TOP - 32}")
        o.all(f'from 1 {TOP - 32} 32', f'from 1 {UTZERO} 40', 'map 1' if name == 'text' else f'from 1 {DATA - 8} 16', 'break 1 0',
            'sum')
    o.note('arguments in the header, the text, the data and the bss of an a.out')
    for image in (E, FILE):
        o('frames 8 9')
        o(f"start 1 'x {FILE}")
        o.all(f"to 1 {BSS_END - 4} 62737300", f'to 1 {BSS + 4} {words(UTZERO + 2, FIRST + 4, DATA, BSS_END - 4, UTZERO, 0)}')
        o(f"replace 1 'y {image} {BSS + 4}")
        o.all(f'from 1 {TOP - 72} 72', f'from 1 {DATA} 16', 'sum')
    o.note('30 for each number, before what is wrong with the array; the process lives')
    o('frames 8 9')
    o(f"start 1 'x {E}")
    for image in (said(EXAMPLE[:31]), said(EXAMPLE, MAGIC + 1), said(EXAMPLE[:43]), said(change(EXAMPLE, entry=FIRST + 2)),
            said(change(EXAMPLE, entry=FIRST + 8)), said(build(b'')), said(ELF), shown(EXAMPLE), said(b'')):
        o.all(f"replace 1 'y {image} 1", f"replace 1 'y {image} {TOP - 8}", 'break 1 0')
    o('sum')
    o.note('35 of the array, then too few frames: each ends the process')
    large = said(change(EXAMPLE, bss=2**32 - 4))
    for image, argv in ((FILE, 1), (FILE, UTZERO), (large, 1), (large, TOP - 8)):
        o('frames 8 9')
        o(f"start 1 'x {FILE}")
        o.all(f"replace 1 'y {image} {argv}", 'break 1 0', 'sum')
    o.note('pages as many as its own and free frames, and one more; text that others hold too is not its own')
    more = said(change(EXAMPLE, bss=7996 + PAGE))
    for frames in (8, 7):
        o('frames', frames, 9)
        o(f"start 1 'x {FILE}")
        o.all(f"replace 1 'y {more} {TOP - 8}", 'map 1', 'sum')
    for image in (said(change(EXAMPLE, bss=100)), FILE):
        o('frames 13 9')
        o(f"start 1 'x {FILE}")
        o.all('fork 1 2', f"replace 2 'y {image} {TOP - 8}", 'map 2', f'from 1 {UTZERO} 40', 'sum')


def order(o):
    """The numbers of start before and after the image's, and those that come first."""
    bad = [b'', EXAMPLE[:43], change(EXAMPLE, entry=FIRST + 1), change(EXAMPLE, entry=FIRST + 8)]
    o.note('32 and 33 of the arguments before 30, then 33 of the frames')
    o('frames 6 9')
    for image in (*map(said, bad), FILE):
        o.all(*(f"start 1 'x {image}{args}" for args in ('', ' 00', ' 61 6200')))
    for image in (said(bad[-1]), FILE):
        o(f"start 1 'x {image}" + ' -' * 454)
    o('sum')
    o('frames 7 9')
    o(f"start 16 '/bin/lex {FILE}" + ' -' * 453)
    o.all('map 16', 'sum')
    o.note('1, 38, 39, 2, 3, 4 and 5 before all of these')
    o('frames 9 9')
    o(f"start 1 'x {FILE}")
    def both():
        for image in (said(bad[0]), FILE):
            o.all(*(f"start {n} 'x {image} 00" for n in (0, 17, 1)), *(f"replace {n} 'x {image} 1" for n in (0, 17, 2)))
    bad_table, bad_set = with_row(7, 1), DEPOSIT._replace(uaddrtop=1)
    give(o, bad_table)
    hand(o, bad_set)
    o(f'lend {9 * PAGE} 152')
    both()
    o(lend(9))
    both()
    hand(o, DEPOSIT)
    o('word 0 7')
    both()
    give(o, BUILT_IN)
    both()
    o('word 0 0')
    both()
    o('sum')


def tables(o):
    """The flag table plays no part."""
    o.note("a table that keeps the rules, whatever it says, and one that does not: 39")
    o('frames 14 9')
    for rows in ((REFUSED,) * 8, PARTNER, table(row5=RODATA), table(row5=REFUSED, row6=REFUSED), table(row4=REFUSED), BUILT_IN):
        give(o, rows)
        o.all(f"start 1 'x {FILE}", f"start 2 'y {E}", f'range 1 {DATA} 1 w', f'range 1 {UTZERO} 1 w', 'break 1 0', 'sum',
            f"replace 1 'z {said(build(TEXT, b'data'))} {TOP - 8}", f'from 1 {DATA} 8', 'sum', 'end 2', 'end 1')
    o(f"start 1 'x {FILE}")
    for rows in (with_row(7, 1), with_row(4, 1), with_row(6, 4)):
        give(o, rows)
        o.all(f"start 2 'x {FILE}", f"replace 1 'x {FILE} {TOP - 8}", "start 2 'x aout=0 -")
    o('sum')


def under(o, setup):
    """Images linked for a set, along its bounds."""
    base, top, limit = setup.utzero, setup.ustktop, setup.limit
    room = limit - base - PAGE                 # for data and bss
    said32 = base + HEADER < 2**32             # whether an entry can say it
    o.note('UTZERO=%d USTKTOP=%d USTKSIZE=%d UADDRTOP=%d' % setup.numbers)
    o('frames', 6 + setup.ustksize // PAGE, 9)
    hand(o, setup)
    text, both = build(TEXT, base=base), build(TEXT, b'data', 100, base=base)
    for at in (0, 28, 33, 40):
        o('start', 1, "'x", said(change(text, entry=base + at)))
    for at in (36, 32):
        o('start', 1, "'x", said(change(text, entry=base + at)))
        o('end 1')
    for image in (change(text, entry=FIRST), change(text, entry=HEADER), EXAMPLE):
        o('start', 1, "'x", said(image))
    o('sum')
    o('start', 1, "'x", said(both), "'lex")
    if said32 and room > 0:
        o.all('map 1', f'from 1 {base} 44', f'from 1 {base + PAGE} 8', f'string 1 {base + 36} 9', 'break 1 0', f'break 1 {limit}',
            f'break 1 {limit + 1}', 'fork 1 2', 'sum', 'end 2')
        o('replace', 1, "'y", said(text), top - 24)
        o.all(f'from 1 {top - 24} 24', 'break 1 0', 'sum', 'end 1')
    # Data and bss up to limit, one less and one more, so far as 32 bits can say it.
    for data in (b'', b'data'):
        for bss in range(room - len(data) - 1, room - len(data) + 2):
            if 0 <= bss <= MOST:
                o('start', 1, "'x", said(build(TEXT, data, bss, base=base)))
                o.all('break 1 0', 'end 1')
    o('start', 1, "'x", said(build(TEXT, b'', MOST, base=base)))
    o('sum')


def sets(o):
    """Other machine numbers."""
    wide = Setup(PAGE, 2 * PAGE + 2**32 + 2 * PAGE, PAGE, 2 * PAGE + 2**32 + 2 * PAGE)     # 2^32 bytes from the data to limit
    for setup in (smallest(PAGE), Setup(PAGE, 5 * PAGE, PAGE, 5 * PAGE), Setup(PAGE, 16 * PAGE, 2 * PAGE, 16 * PAGE),
            wide, DEPOSIT._replace(utzero=PAGE), DEPOSIT._replace(utzero=2**31), DEPOSIT._replace(utzero=2**32 - PAGE),
            DEPOSIT._replace(utzero=2**32)):
        under(o, setup)
    o.note('frames as many as the pages, and one less')
    setup = Setup(PAGE, 16 * PAGE, 2 * PAGE, 16 * PAGE)
    for frames in (5, 4):
        o('frames', frames, 9)
        hand(o, setup)
        o('start', 1, "'x", said(example_at(PAGE)))
        o('sum')
    o.note('a start that fits one set and not another')
    for utzero in (PAGE, UTZERO - PAGE, UTZERO, UTZERO + PAGE):
        o('frames 9 9')
        hand(o, DEPOSIT._replace(utzero=utzero))
        o(f"start 1 'x {FILE}")
        o('map 1')


def form(o):
    """The word that says the form."""
    o.note('the word before the image: a number up to 2^32 - 1, with zeros before it')
    o('frames 9 9')
    small = shown(SMALL)
    zero, most = shown(change(SMALL, magic=0)), shown(change(SMALL, magic=MOST))
    for before, image in ((f'aout={MAGIC}', small), (f'aout=000{MAGIC}', small), ('aout=' + '0' * 30 + str(MAGIC), small),
            ('aout=0', zero), ('aout=00', zero), (f'aout={MOST}', most), (f'aout=0{MOST}', most)):
        o.all(f"start 1 'x {before} {image}", f"replace 1 'y {before} {image} {TOP - 8}", 'sum', 'end 1')
    o.note('anything else is a bad line')
    o(f"start 1 'x {FILE}")
    bad = [(f'aout={MOST + 1}', zero), (f'aout={2**32 + MAGIC}', small), ('aout=', zero), ('aout', small), (f'aout=+{MAGIC}', small),
        (f'Aout={MAGIC}', small), (f'aout={MAGIC} aout={MAGIC}', small), (f'aout={MAGIC} ', small)]
    for before, image in bad:
        o(f"replace 1 'y {before} {image} {TOP - 8}")
    for before, image in bad:
        o(f"start 2 'x {before} {image}")
    for before in (f'aout={MAX}', f'aout={MAX + 1}', f'aout={2**64 + MAGIC}', 'aout=' + '9' * 40, f'aout:{MAGIC}', f'aout{MAGIC}',
            f'aout=={MAGIC}', f'aout=-{MAGIC}', 'aout=-0', 'aout=0x0c47', 'aout=c47', 'aout=0c47', f'aout={MAGIC}.', f"aout='{MAGIC}",
            f'aout=@{MAGIC}', f'AOUT={MAGIC}', f'a.out={MAGIC}', f'aouts={MAGIC}', f'magic={MAGIC}', f'={MAGIC}', 'elf', 'elf=',
            'aout=elf', f'aout= {MAGIC}', f'aout ={MAGIC}', f' aout={MAGIC}'):
        o(f"start 2 'x {before} -")
    o.all('sum', 'end 1')
    o.note('it stands before the image alone, and an image follows it')
    for line in (f"aout={MAGIC} start 1 'x {E}", f"start aout={MAGIC} 1 'x {E}", f"start 1 aout={MAGIC} 'x {E}",
            f"start 1 'x {E} aout={MAGIC}", f"start 1 'x {E} 61 aout={MAGIC}", f"start 1 'x aout={MAGIC}", f"start 1 aout={MAGIC}",
            f'start aout={MAGIC}', f"start 1 'x aout={MAGIC} ", f"start 1 'x {FILE} aout={MAGIC}", f"start 1 'x aout={MAGIC} 'x {small}",
            f'start 1 aout={MAGIC} {FILE}', f"start 1 'x aout={MAGIC} {small[:-1]}", f"start 1 'x {FILE} 6", f"start 1 'x aout={MAGIC} zz",
            f"start 1 'aout=7 {FILE} 'aout={MAGIC}", 'map 1', f"replace 1 'x {E} aout={MAGIC} {TOP - 8}",
            f"replace 1 'x {E} {TOP - 8} aout={MAGIC}", f"replace 1 'x {E} aout={MAGIC}", f"replace 1 'x aout={MAGIC} {TOP - 8}",
            f"replace 1 'x {FILE}", f"replace 1 'x aout={MAGIC}", f"replace 1 'x {FILE} {TOP - 8} 0",
            f"replace 1 aout={MAGIC} 'x {E} {TOP - 8}", f"replace 1 'x {FILE} x", f"replace 1 'x aout={MAGIC} aout={MAGIC} {TOP - 8}",
            f'push 1 0 {TOP} aout={MAGIC}', f'to 1 {DATA} aout={MAGIC}', f'name aout={MAGIC}', f'break 1 aout={MAGIC}',
            f'fork 1 2 aout={MAGIC}', f'numbers aout={MAGIC}', f'flags aout={MAGIC}', f'aout={MAGIC}', 'sum', 'end 1'):
        o(line)
    o.note('bytes that only look like it: a name, an image, an argument')
    o.all(f"start 1 'x 'aout={MAGIC}", f"start 1 'x 'aout={MAGIC} {small}", f"start 1 'x aout={MAGIC} 'aout={MAGIC}",
        f"start 1 'aout={MAGIC} {E} 'aout={MAGIC}", f'from 1 {TOP - 32} 32', f"replace 1 'x 'aout={MAGIC} {TOP - 8}", 'map 1', 'end 1')
    o.note('the form is said anew for each image: without the word it is ELF, with it none')
    for line in (f"start 1 'x {FILE}", f"start 2 'y {shown(EXAMPLE)}", f"start 2 'y {said(ELF)}",
            f"start 2 'y {said(ELF, int.from_bytes(ELF[:4], 'big'))}", f"replace 1 'y {shown(EXAMPLE)} {TOP - 8}",
            f"replace 1 'y {E} {TOP - 8}", f"replace 1 'y {said(ELF)} {TOP - 8}", f"replace 1 'z {FILE} {TOP - 8}", 'map 1', 'sum',
            'end 1'):
        o(line)
    o.note('files; of several words that give nothing the first says why, the image of a start coming last')
    for line in (f"start 2 'x aout={MAGIC} @tests/compare/no-such-file", f"start 2 'x aout={MAGIC} @/dev/zero",
            f"start 2 'x aout={MAGIC} @tests/compare/example.elf", "start 2 'x @tests/compare/example.aout",
            'start 2 @tests/compare/no-such-file aout=x @/dev/zero', "start 2 'x aout=x @tests/compare/no-such-file",
            f"start 2 'x aout={MAGIC} @tests/compare/no-such-file @/dev/zero", f"start 2 'x aout={MAGIC} @/dev/zero 6",
            f"start 2 'x aout={2**32} {small} @/dev/zero", f"start x 'x aout={MAGIC} @/dev/zero",
            f'start 2 @tests/compare/no-such-file aout={MAGIC}', f"start 1 'x {FILE}",
            f"replace 1 'x aout={MAGIC} @tests/compare/no-such-file x", f"replace 1 'x aout={MAGIC} @/dev/zero {TOP - 8}",
            f"replace 1 'x aout= @/dev/zero {TOP - 8}", f'replace 1 @tests/compare/no-such-file aout= @/dev/zero {TOP - 8}',
            f"replace 1 'x aout={MAGIC} @tests/compare/example.aout {TOP - 8}", 'sum'):
        o(line)


def aout():
    o = Out('aout',
        'Plan 9 a.outs: each check at its bounds, what is loaded, start, replace, fork and break; the word before the image.')
    each(o)
    parts(o)
    pages(o)
    breaks(o)
    forks(o)
    replaced(o)
    order(o)
    tables(o)
    sets(o)
    form(o)
    return o
