"""Flag tables, and calls under them."""
from itertools import product

from rules.flags import BUILT_IN, REFUSED, table_lines
from rules.machine import DATA, MAX, PAGE, RODATA, TEXT
from rules.setup import DEPOSIT, Setup, written
from script import shown

from .built import build, many, seg
from .out import E, LOW, TOP, UTZERO, Out, count, lend, mapping, place
from .sets import hand, smallest, ten

# A process of the images here: text, then what is under test, then perhaps more.
SECOND, THIRD = UTZERO + PAGE, UTZERO + 2 * PAGE


def table(row4=RODATA, row5=TEXT, row6=DATA):
    """A table by its rows that may be other than refused."""
    return REFUSED, REFUSED, REFUSED, REFUSED, row4, row5, row6, REFUSED


def with_row(row, code, base=BUILT_IN):
    return base[:row] + (code,) + base[row + 1:]


# All that keep the rules.
ACCEPTED = [table(*rows) for rows in product((RODATA, REFUSED), (TEXT, RODATA, REFUSED), (DATA, RODATA, REFUSED))]
# The partner's: constants are marked readable and writable.
PARTNER = table(row6=RODATA)
# Tables that break a rule: a row that must be refused, text without the execute bit, data without the write bit, a code above 3,
# and several of these.
BAD = [with_row(0, RODATA), with_row(3, DATA), with_row(7, TEXT), with_row(4, TEXT), with_row(6, TEXT), with_row(4, DATA),
    with_row(5, DATA), with_row(5, 4), with_row(6, 255), (255,) * 8]


def give(o, rows, as_lines=False):
    """Hand a table over: its codes, or the lines of a file that say it."""
    o('flags', shown(table_lines(rows)) if as_lines else ' '.join(map(str, rows)))


def two(flags, pages=1, filesz=8):
    """A page of text, then a segment with these flags."""
    return shown(build(seg(5, 0), seg(flags, 1, filesz, max(PAGE * (pages - 1) + 8, filesz))))


def each_row(o):
    """Every row with other codes, as the only change of the built-in table and of one where all is refused."""
    for base, more in (BUILT_IN, (5, 6, 7, 8, 16, 64, 127, 128, 254)), ((REFUSED,) * 8, ()):
        for row in range(8):
            for code in (0, 1, 2, 3, 4, *more, 255):
                give(o, with_row(row, code, base))
                o.all('end 1', f'rule 0 {PAGE} 0 {PAGE}')
    o.note('tables with one code in every row, and the built-in one in other orders')
    for rows in (*((code,) * 8 for code in (1, 2, 3, 4, 255, 0)), tuple(range(8)), BUILT_IN[::-1], BUILT_IN[4:] + BUILT_IN[:4],
            BUILT_IN[1:] + BUILT_IN[:1], BUILT_IN[-1:] + BUILT_IN[:-1], table(TEXT, RODATA, DATA), table(DATA, TEXT, RODATA),
            table(RODATA, DATA, TEXT), BUILT_IN):
        give(o, rows)
        o.all('end 1', f'rule 0 {PAGE} 0 {PAGE}')


def images_under(o, rows):
    """Starts of images with each value of the low three bits: in the segment with the entry and, if there can be a text, after it."""
    for low in range(8):
        # Of the flags only the low three bits count.
        flags = low + 8 * (low % 3)
        o('start', 1, "'one", shown(build(seg(flags, 0))))
        o('end 1')
        if rows[5] == TEXT:
            o('start', 2, "'two", two(flags, 2))
            if rows[low] != REFUSED:
                o.all('map 2', f'range 2 {SECOND} {2 * PAGE} r', f'range 2 {SECOND} 1 w', f'range 2 {UTZERO} 1 w', 'break 2 0')
            o('end 2')
    o('start', 1, "'all", shown(build(seg(5, 0), seg(4, 1), seg(6, 2))))
    o.all('map 1', 'sum', 'end 1')


def partner(o):
    """The partner's image: a page of text, and constants marked readable and writable, with a page of zeros after the file bytes."""
    image = two(6, 2)
    o.note('flags 6 as rodata: its pages are rodata, zeros after the file bytes; no bss, and the break begins after them')
    o('frames 11 9')
    give(o, PARTNER)
    o('start', 1, "'lex", image, "'mot")
    o.all('map 1', f'from 1 {SECOND} 12', f'from 1 {THIRD} 4', f'string 1 {SECOND} 9', 'break 1 0', f'break 1 {THIRD}', 'sum')
    for a, k in ((SECOND, 0), (SECOND, 1), (THIRD, 1), (SECOND, 2 * PAGE), (SECOND, 2 * PAGE + 1), (THIRD + PAGE - 1, 1)):
        o.all(f'range 1 {a} {k} r', f'range 1 {a} {k} w')
    o.note('a fork shares them: four frames are enough, for the stack alone; with three it is 33')
    o.all('fork 1 2', 'map 2', 'sum', f'from 2 {SECOND} 12', 'end 2', f'break 1 {THIRD + PAGE + 1}', 'fork 1 2',
        f'break 1 {THIRD + PAGE}', 'fork 1 2')
    o.note('a write to them ends the process with 35, a push too; the other holder keeps them')
    o.all(f'to 2 {SECOND} -', f'to 2 {THIRD + 9} 61', 'sum', 'map 1', 'fork 1 2', f'push 2 0 {THIRD} 61', 'sum',
        f'from 1 {SECOND} 12', f'to 1 {SECOND - 1} 6161', 'sum')
    o.note('the built-in table: the same image has data and a bss, which are written, and which a fork copies')
    o('frames 11 9')
    o('start', 1, "'lex", image, "'mot")
    o.all('map 1', f'range 1 {SECOND} {2 * PAGE} w', f'to 1 {THIRD + 9} 61', 'break 1 0', 'fork 1 2', f'break 1 {THIRD}', 'fork 1 2',
        'sum', 'end 1')
    o('frames 13 9')
    o('start', 1, "'lex", image)
    o.all('fork 1 2', 'map 2', f'to 2 {SECOND} 61', f'from 1 {SECOND} 1', f'from 2 {SECOND} 1', 'sum')


def layouts(o):
    """What a segment is under a table decides what may follow it, what is recorded and what is bss."""
    several = {
        'text and rodata after it': build(seg(5, 0), seg(6, 1), seg(4, 2), seg(6, 3), seg(5, 4)),
        'two of it': build(seg(5, 0), seg(6, 1), seg(6, 2)),
        'before the text': build(seg(6, 0), seg(5, 1), entry=SECOND),
        'no file bytes, at the start of a page': build(seg(5, 0), seg(6, 1, 0, PAGE)),
        'no file bytes, inside a page': build(seg(5, 0), seg(6, 1, 0, 8, at=16)),
        'the entry in it': build(seg(5, 0), seg(6, 1), entry=SECOND),
        'empty, of another type': build(seg(5, 0), seg(6, 1, memsz=0), seg(7, 1, kind=2), seg(4, 2, memsz=0)),
        'up to limit': build(seg(5, 0), seg(6, (DEPOSIT.limit - UTZERO) // PAGE - 1, 8, PAGE)),
        'one byte above limit': build(seg(5, 0), seg(6, (DEPOSIT.limit - UTZERO) // PAGE - 1, 8, PAGE + 1)),
        'fifteen segments': build(seg(5, 0), *(seg(6, k, 1, 1) for k in range(1, 15))),
        'sixteen segments': build(seg(5, 0), *(seg(6, k, 1, 1) for k in range(1, 16))),
        'flags 14 and 2^32 - 2': build(seg(5, 0), seg(14, 1), seg(2**32 - 2, 2)),
    }
    for note, image in several.items():
        o.note('flags 6 as rodata, data and refused: ' + note)
        for row6 in (RODATA, DATA, REFUSED):
            o('frames 24 9')
            give(o, table(row6=row6))
            o('start', 1, "'x", shown(image))
            o.all('map 1', 'break 1 0', 'fork 1 2', 'sum')
    o.note('flags 5 as rodata or refused: no image has an entry; flags 4 refused: those without it start')
    for rows in (table(row5=RODATA), table(row5=REFUSED), table(row4=REFUSED)):
        o('frames 24 9')
        give(o, rows)
        for image in (build(seg(5, 0)), build(seg(13, 0)), build(seg(5, 0), seg(6, 1)), build(seg(5, 0), seg(4, 1)),
                build(seg(5, 0), seg(12, 1)), build(seg(5, 0), seg(4, 1, memsz=0)), build(seg(5, 0), seg(4, 1, kind=2)),
                build(seg(4, 0)), build(seg(4, 0), seg(5, 1), entry=SECOND)):
            o('start', 1, "'x", shown(image))
            o('end 1')
        o('sum')
    o.note('all refused: no image, and 30 for each; the other calls go on')
    o.fresh(frames=20)
    give(o, (REFUSED,) * 8)
    o.all(f"start 2 'x {E}", f"start 2 'x {shown(build(seg(5, 0)))}", "start 2 'x 00", 'fork 1 2', f'to 2 {TOP - 8} 6161',
        'break 2 0', f"replace 2 'x {E} {TOP - 8}", f'from 2 {TOP - 8} 2', 'end 2', 'sum')


def replaced(o):
    """Replace judges by the table that it is handed, its needs of frames too."""
    o.note('replace under another table: the pages that the image has then; with a frame too few it is 33')
    image = two(6, 2)
    for frames in (7, 6):
        o('frames', frames, 9)
        o('start', 1, "'x", shown(build(seg(5, 0))))
        for rows in (table(row6=REFUSED), PARTNER, BUILT_IN):
            give(o, rows)
            o('replace', 1, "'y", image, TOP - 8)
            o.all('map 1', f'range 1 {SECOND} 1 w', 'sum')
    o.note("constants that others hold too are not the process's own: seven pages fit beside the other's ten, eight do not")
    o('frames 17 9')
    give(o, PARTNER)
    o('start', 1, "'x", image)
    o.all('fork 1 2', 'map 2', f'break 1 {THIRD + 4 * PAGE}', 'sum')
    o('replace', 2, "'y", image, TOP - 8)
    o.all('map 2', 'sum')
    o('replace', 2, "'y", two(6, 3), TOP - 8)
    o.all('map 2', 'sum', f'from 1 {SECOND} 12')


def judged(o):
    """A bad table, for every call, whatever the image is."""
    school = Setup(PAGE, 16 * PAGE, PAGE, 16 * PAGE)
    o.note('39 in every call, and in the rule; nothing changes, and map, sum, name, word and lend go on')
    o('frames 9 9')
    hand(o, school)
    o('start', 1, "'lex", shown(build(seg(5, 0, base=PAGE), entry=PAGE)))
    o('sum')
    for rows in BAD:
        give(o, rows)
        o.all(*ten(school, 1, 2))
    o.all('sum', 'map 1', 'map 2', "name 'name")
    o.note('the table is judged whole: images that do not have the bad row; before 32, 33, 30 and 31')
    o('frames 30 9')
    only_text, sixteen = shown(build(seg(5, 0))), shown(many(16))
    for row, code in ((0, TEXT), (4, DATA), (6, TEXT), (7, TEXT), (7, RODATA), (6, 4)):
        give(o, with_row(row, code))
        o.all(f"start 1 'x {only_text}", f"start 1 'x {only_text} 00", "start 1 'x 00", "start 1 'x -", f"start 1 'x {sixteen}")
        o('start', 1, "'x", shown(build(seg(5, 0), seg(row, 1))))
    o('sum')
    o.note('39 after 38 and 1, before 2, 3, 4 and 5')
    o('frames 9 9')
    hand(o, school)
    o('start', 1, "'lex", shown(build(seg(5, 0, base=PAGE), entry=PAGE)))
    for rows in (with_row(7, TEXT), with_row(4, 255)):
        give(o, rows)
        hand(o, school._replace(uaddrtop=15 * PAGE))
        o.all(*ten(school, 1, 2), f'lend {8 * PAGE} 153', *ten(school, 1, 2), lend(9))
        hand(o, school)
        o.all(f'lend {9 * PAGE} 152', *ten(school, 1, 2), lend(9))
        o.all('word 0 7', *ten(school, 1, 2), *ten(school, 17, 17), *ten(school, 3, 1), 'word 0 0', *ten(school, 17, 17),
            *ten(school, 3, 1), 'sum')
    o.note('38 with a table that keeps the rules; 2 under both that are accepted')
    give(o, PARTNER)
    hand(o, Setup(0, 0, 0, 0))
    o.all(*ten(school, 1, 2))
    hand(o, school)
    o.all('break 1 0', 'word 0 7', 'break 1 0', 'word 0 0', 'sum')
    o.note('a torn book is torn under every table that is accepted')
    o.all(f'word {place(0, 2)} {mapping(2 * PAGE, 2, 2)}', f'word {count(0)} 1')
    for rows in ACCEPTED:
        give(o, rows)
        o('break 1 0')
    o.all(f'word {place(0, 2)} 0', f'word {count(0)} 0', 'break 1 0')


def changes(o):
    """A table that changes while processes live: what they have stays."""
    image = two(6, 2)
    o.note('processes of one image under two tables; the pages stay what they were when it was started')
    o('frames 50 9')
    give(o, PARTNER)
    o('start', 1, "'ro", image)
    give(o, BUILT_IN, True)
    o('start', 2, "'rw", image)
    for rows in (*ACCEPTED, BUILT_IN):
        give(o, rows)
        o.all(*(f'range {n} {SECOND} 9 {way}' for n in (1, 2) for way in 'rw'))
    o.all('fork 1 3', 'fork 2 4', 'map 3', 'map 4', 'sum')
    give(o, PARTNER)
    o.all('fork 1 5', 'fork 2 6', 'map 5', 'map 6', f'fork 1 7 {UTZERO} {SECOND} 1 {SECOND} {THIRD + PAGE} 2 {LOW} {TOP} 3',
        f'fork 1 8 {UTZERO} {SECOND} 1 {SECOND} {THIRD + PAGE} 3 {LOW} {TOP} 3', 'sum')
    o('replace', 4, "'ro", image, TOP - 8)
    o.all('map 4', 'break 4 0')
    give(o, BUILT_IN)
    o('replace', 3, "'rw", image, TOP - 8)
    o.all('map 3', f'to 3 {SECOND} 61', f'to 4 {SECOND} 61', 'sum')
    o.note('a bad table between two calls changes nothing')
    for rows in (with_row(7, TEXT), with_row(4, 255)):
        give(o, rows)
        o.all('end 1', f'to 1 {SECOND} 61', f'from 2 {MAX} 1', 'sum')
    give(o, BUILT_IN)
    o.all('end 1', 'sum')
    o.note('frames goes back to the built-in table, and lines that are refused leave the table as it was')
    give(o, PARTNER, True)
    o('frames 9 9')
    o('start', 1, "'x", image)
    o.all(f'range 1 {SECOND} 1 w', 'end 1')
    give(o, PARTNER, True)
    for rows in (table_lines(BUILT_IN)[:-1], table_lines(with_row(7, TEXT))):
        o('flags', shown(rows))
    o('start', 1, "'x", image)
    o.all(f'range 1 {SECOND} 1 w', 'end 1')
    give(o, with_row(7, TEXT))
    o.all('end 1', 'frames 9 9', 'end 1')
    o('start', 1, "'x", image)
    o.all(f'range 1 {SECOND} 1 w', 'end 1', 'sum')
    o.note('the line numbers leaves the table, the line flags the numbers; lend and word leave both')
    setup = DEPOSIT._replace(ustksize=PAGE)
    give(o, PARTNER)
    for lines in (False, True):
        hand(o, setup, lines)
        o.all(lend(9), 'word 0 0')
        o('start', 1, "'x", image)
        o.all('map 1', 'end 1')
    o('numbers', shown(written(setup)[:-1]))
    give(o, BUILT_IN)
    o('start', 1, "'x", image)
    o.all('map 1', 'sum')


def under_sets(o):
    """Other numbers and another table together."""
    o.note('other numbers and another table together: the smallest address space, a larger one, and one at the top')
    for setup in (smallest(PAGE), Setup(PAGE, 7 * PAGE, PAGE, 7 * PAGE), smallest(16 * PAGE, 2**47 - 18 * PAGE)):
        base = setup.utzero
        o('frames', 24, 9)
        hand(o, setup)
        for rows in (PARTNER, BUILT_IN, table(REFUSED, TEXT, REFUSED)):
            give(o, rows)
            for image in (build(seg(5, 0, base=base), entry=base), build(seg(5, 0, base=base), seg(6, 1, base=base), entry=base),
                    build(seg(6, 0, base=base), seg(5, 1, base=base), entry=base + PAGE),
                    build(seg(5, 0, base=base), seg(6, 1, 8, 2 * PAGE, base=base), seg(4, 3, base=base), entry=base)):
                o('start', 1, "'x", shown(image))
                o.all('map 1', 'end 1')
        o('sum')


def flags():
    o = Out('flags', 'Flag tables: each rule at each row; calls under each; 39 among the numbers that come first; changes.')
    o.note('every row with codes that it may have or not, the only change of the built-in table or of one where all is refused')
    o('frames 1 9')
    each_row(o)
    for i, rows in enumerate(ACCEPTED):
        o.note('flags 4, 5, 6: %d, %d, %d' % rows[4:7])
        o('frames 14 9')
        give(o, rows, i % 2)
        images_under(o, rows)
    partner(o)
    layouts(o)
    replaced(o)
    judged(o)
    changes(o)
    under_sets(o)
    return o
