"""Text and rodata shared at a fork (request 10): families, needs, and books that are torn by one rule."""
from itertools import permutations

from rules.machine import MAX, PAGE
from script import shown

from .built import build, seg
from .out import LOW, TOP, UTZERO, Out, count, lend, mapping, place

EXAMPLE = '@tests/compare/example.elf'
# Text, rodata, data, bss and stack: 1, 1, 1, 1 and 4 pages. A fork copies six.
PROGRAM = shown(build(seg(5, 0), seg(4, 1, at=16), seg(6, 2, 8, 2 * PAGE)))
TEXT, RODATA, DATA, BSS = (UTZERO + PAGE * k for k in range(4))
SHARED, COPIED = 2, 6


def begin(o, frames, *forks):
    """The program as process 1, and forks."""
    o(f'frames {frames} 9')
    o(f"start 1 'pupil {PROGRAM}")
    o.all(*(f'fork {parent} {child}' for parent, child in forks))


def of_pages(pages):
    """An image that takes so many pages with the stack."""
    return shown(build(seg(5, 0), seg(6, 1, 8, PAGE * (pages - 5))))


def family(o):
    """A process, its two children, and the child of one."""
    begin(o, SHARED + 4 * COPIED + 1, (1, 2), (2, 3), (1, 4))


def orders():
    o = Out('orders', 'A family of four: ended in every order, and each replaced at each point of it.')
    for order in permutations((1, 2, 3, 4)):
        o.note('ended: %d %d %d %d' % order)
        family(o)
        for k, n in enumerate(order):
            o(f'end {n}')
            o.all(*(f'from {m} {at} 4' for m in order[k + 1:] for at in (TEXT, RODATA + 16)))
            o('sum')
    for order in permutations((1, 2, 3, 4)):
        for k, n in enumerate(order):
            o.note('ended: %d %d %d %d, but one replaced: %d' % (*order, n))
            family(o)
            o.all(*(f'end {m}' for m in order[:k]))
            o(f"replace {n} 'new {EXAMPLE} {BSS}")
            o.all(*(f'end {m}' for m in order[k + 1:]), 'sum', f'end {n}', 'sum')
    return o


def holders(o):
    o.note('each page with its holders: forks, forks of forks, ends, a replace, a number used again')
    begin(o, 40, (1, 16), (16, 2))
    o.all('map 1', 'map 16', 'sum', 'end 1', 'map 2', 'fork 2 1', 'map 1', 'sum')
    o.all(f"replace 16 'new {EXAMPLE} {BSS}", 'map 16', 'map 1', 'fork 16 3', 'map 3', 'sum', 'end 2', 'end 1', 'sum')
    o.note('a shared frame stays with its other holder, with its bytes; the last one frees it, and it is used again')
    begin(o, 14, (1, 2))
    o.all('end 1', f'from 2 {TEXT} 8', f'from 2 {RODATA + 16} 8', 'map 2', 'sum', f"start 1 'x {of_pages(6)}", 'map 1', 'end 2',
        'sum', f"start 2 'y {of_pages(8)}", 'map 2', 'sum')


def sixteen(o):
    o.note('sixteen holders of a frame, and one less')
    begin(o, SHARED + 16 * COPIED, *((n, n + 1) for n in range(1, 16)))
    o.all('map 1', 'fork 16 1', 'fork 1 17', 'sum', 'end 8', 'map 16', f'break 1 {BSS + 7 * PAGE}', 'sum')
    for n in [1, *range(16, 1, -1)]:
        o.all(f'end {n}')
    o('sum')


def pupils(o):
    o.note('eight pupils: frames for one text and rodata and eight of data, bss and stack, exactly; one less; one more')
    for frames in (SHARED + 8 * COPIED, SHARED + 8 * COPIED - 1, SHARED + 8 * COPIED + 1):
        begin(o, frames, *((1, n) for n in range(2, 9)))
        o.all('sum', f'break 1 {BSS + PAGE + 1}', 'fork 8 9', 'map 8')
    o.note('what one writes the others do not read: data, bss, stack')
    begin(o, SHARED + 8 * COPIED, *((n // 2, n) for n in range(2, 9)))
    for n in range(1, 9):
        for at in (DATA + 16, BSS + 5, TOP - 3):
            o(f"to {n} {at} 'p{n}")
            o.all(*(f'from {m} {at} 2' for m in range(1, 9)))
    o.all('sum', *(f'from {n} {TEXT} 8' for n in range(1, 9)), *(f'range {n} {RODATA} 1 w' for n in range(1, 9)))
    o.note('a write to shared text or rodata ends the writer alone; a bad push too')
    o.all(f"to 3 {RODATA} 'x", f"to 5 {TEXT} 'x", f'push 7 0 {DATA}', 'sum', *(f'from {n} {RODATA + 16} 8' for n in range(1, 9)))


def fork_needs(o):
    o.note('a fork with one frame less than it copies, as many, one more')
    for free in (COPIED - 1, COPIED, COPIED + 1):
        begin(o, SHARED + COPIED + free, (1, 2))
        o('sum')
    o.note('the same of the parent again, of the child, and of what is left when the parent has ended')
    for parent in (1, 2):
        for free in (COPIED - 1, COPIED, COPIED + 1):
            begin(o, SHARED + 2 * COPIED + free, (1, 2), (parent, 3))
            o('sum')
    for more, grown in ((1, 1), (0, 0), (1, 0)):
        begin(o, SHARED + 2 * COPIED + more, (1, 2))
        o.all('end 1', f'break 2 {BSS + PAGE + PAGE * grown}', 'fork 2 3', 'sum')
    o.note('with a larger bss, and with none')
    for free in (COPIED + 2, COPIED + 3, COPIED + 4):
        begin(o, SHARED + COPIED + 3 + free)
        o.all(f'break 1 {BSS + 4 * PAGE}', 'fork 1 2', 'sum')
    for free in (COPIED - 2, COPIED - 1, COPIED):
        begin(o, SHARED + COPIED - 1 + free)
        o.all(f'break 1 {BSS}', 'fork 1 2', 'sum')


def replace_needs(o):
    def run(n, frames, alone, free, *before):
        """Of process n, in a book with so many frames free and so many that it alone holds."""
        for pages in (alone + free - 1, alone + free, alone + free + 1):
            begin(o, frames)
            o.all(*before, f"replace {n} 'new {of_pages(pages)} {BSS}", f'map {n}', 'sum')
    o.note('replace by one page less than the frames held alone and the free ones, as many, one more: nothing shared')
    for free in (0, 1):
        run(1, SHARED + COPIED + free, SHARED + COPIED, free)
    o.note('text and rodata shared: the parent, the child, one of three')
    for n in (1, 2):
        for free in (0, 1):
            run(n, SHARED + 2 * COPIED + free, COPIED, free, 'fork 1 2')
    run(2, SHARED + 3 * COPIED, COPIED, 0, 'fork 1 2', 'fork 2 3')
    o.note('held alone again: the others have ended, or have been replaced')
    run(1, SHARED + 2 * COPIED, SHARED + COPIED, COPIED, 'fork 1 2', 'end 2')
    run(2, SHARED + 2 * COPIED, SHARED + COPIED, COPIED, 'fork 1 2', 'end 1')
    run(1, SHARED + 2 * COPIED, SHARED + COPIED, 0, 'fork 1 2', f"replace 2 'six {of_pages(6)} {BSS}")
    o.note('what an end by 33 leaves: the other holder, its pages and their bytes')
    begin(o, SHARED + 2 * COPIED, (1, 2))
    o.all(f"replace 1 'new {of_pages(7)} {BSS}", f'from 2 {TEXT} 8', f'from 2 {RODATA + 16} 8', 'map 2', 'fork 2 1', 'map 1', 'sum')


def shared():
    o = Out('shared', 'Text and rodata shared at a fork: holders, sixteen of them, eight pupils; what fork and replace need.')
    holders(o)
    sixteen(o)
    pupils(o)
    fork_needs(o)
    replace_needs(o)
    return o


# Books torn by one rule

class Book:
    """The book of a script, which has these frames: each a page, its permission and its holders."""

    def __init__(self, o, frames):
        self.o, self.words = o, {}
        for i, (page, perm, *holding) in frames.items():
            self.words.update({place(i, n): mapping(page, n, perm) for n in holding})
            self.words[count(i)] = len(holding)

    def write(self, words):
        self.o.all(*(f'word {at} {word % 2**64}' for at, word in words.items()))

    def torn(self, *changes):
        """For each of the changes: words written, a call, the words put back, a call."""
        for words in changes:
            self.write(words)
            self.o(f'range 1 {TEXT} 1 r')
            self.write({at: self.words.get(at, 0) for at in words})
        self.o.all(f'range 1 {TEXT} 1 r', 'sum')

    def moved(self, n, i, j):
        """What moves process n's mapping of frame i to frame j, with both counts."""
        word = self.words[place(i, n)]
        return {place(i, n): 0, count(i): self.words[count(i)] - 1, place(j, n): word, count(j): self.words.get(count(j), 0) + 1}

    def exchanged(self, n, i, j):
        """What exchanges process n's mappings of two frames."""
        return {place(i, n): self.words[place(j, n)], place(j, n): self.words[place(i, n)]}


def small(o):
    """Parent and child in 15 frames: text 14 and rodata 13 shared; data, bss and stack 12 to 7, and 6 to 1; 0 free."""
    begin(o, 15, (1, 2))
    stack = [LOW + PAGE * k for k in range(4)]
    own = lambda n, i: {i - k: (page, 3, n) for k, page in enumerate([DATA, BSS, *stack] if n == 1 else [DATA, *stack, BSS])}
    return Book(o, {14: (TEXT, 1, 1, 2), 13: (RODATA, 2, 1, 2), **own(1, 12), **own(2, 6)})


def torn_words(o):
    o.note('a count that is not the number of mappings: of a shared frame, of one held alone, of a free one')
    b = small(o)
    o.all('map 1', 'map 2')
    b.torn(*({count(i): held} for i, good in ((14, 2), (13, 2), (12, 1), (1, 1), (0, 0))
        for held in (0, 1, 2, 3, 16, 17, good + 2**32, MAX) if held != good))
    o.note('a mapping without its count, a count without its mapping')
    b.torn(*({place(i, n): 0} for i, n in ((14, 1), (14, 2), (13, 2), (12, 1), (6, 2))),
        {place(14, 3): mapping(TEXT, 3, 1)}, {place(0, 3): mapping(TEXT, 3, 1)}, {place(0, 1): mapping(TEXT, 1, 1)},
        {place(12, 2): mapping(DATA, 2, 3)}, {place(14, 2): 0, count(13): 3}, {count(14): 1, count(13): 3})
    o.note("a word in another owner's place: a dead one's, a living one's, exchanged, and owners 0 and 17")
    text = lambda owner: mapping(TEXT, owner, 1)
    b.torn(*({place(14, 2): 0, place(14, n): text(2)} for n in (3, 16)), {place(14, 1): text(2), place(14, 2): text(1)},
        {place(14, 1): text(2)}, {place(14, 2): text(1)},
        {place(6, 2): 0, place(6, 1): mapping(DATA, 2, 3)}, {place(12, 1): 0, place(12, 2): mapping(DATA, 1, 3)},
        *({place(14, n): text(owner)} for n in (1, 2) for owner in (0, 17, 18, 255)),
        {place(14, 16): text(17), count(14): 3}, {place(14, 3): text(1), count(14): 3}, {place(0, 16): text(17), count(0): 1},
        {place(0, 1): text(0), count(0): 1})
    o.note("a mapping of a dead process, with its count; a living one's page twice; a page that is not its record's")
    b.torn(*({place(14, n): text(n), count(14): 3} for n in (3, 16)), {place(0, 3): text(3), count(0): 1},
        {place(0, 2): text(2), count(0): 1}, {place(0, 1): mapping(DATA, 1, 3), count(0): 1},
        {place(0, 1): mapping(BSS + PAGE, 1, 3), count(0): 1}, {place(14, 2): 0, count(14): 1},
        {place(14, n): mapping(BSS + PAGE, n, 1) for n in (1, 2)}, {place(14, n): mapping(TEXT, n, 2) for n in (1, 2)},
        {place(14, n): mapping(TEXT - PAGE, n, 1) for n in (1, 2)}, {place(13, n): mapping(TOP, n, 2) for n in (1, 2)})
    o.note('a data frame with two mappings, each of the record and with its count: data, bss, stack')
    b.torn(b.moved(2, 6, 12), b.moved(1, 12, 6), b.moved(2, 1, 11), b.moved(2, 5, 10), b.moved(1, 7, 2))
    o.note('mappings of a frame that differ: both in page and permission; text or rodata beside data')
    b.torn(b.exchanged(2, 14, 13), b.exchanged(1, 14, 13), b.moved(2, 13, 14), b.moved(1, 14, 13), b.moved(2, 14, 12),
        b.moved(1, 12, 14), b.exchanged(2, 14, 6))


def torn_alike(o):
    o.note('mappings of a frame that differ in page alone: two pages of text')
    o('frames 15 9')
    o(f"start 1 'two {shown(build(seg(5, 0), seg(5, 1), seg(6, 2, 8, 2 * PAGE)))}")
    o('fork 1 2')
    b = Book(o, {14: (TEXT, 1, 1, 2), 13: (RODATA, 1, 1, 2)})
    b.torn(b.exchanged(2, 14, 13), b.exchanged(1, 14, 13), b.moved(2, 13, 14), b.moved(1, 14, 13))
    o.note('and exchanged for both: sound, with the pages in each other\'s frames')
    b.write({**b.exchanged(1, 14, 13), **b.exchanged(2, 14, 13)})
    o.all('map 1', 'end 1', 'fork 2 1', 'map 2', f'from 1 {TEXT} 4', 'sum')
    o.note('mappings that differ in permission alone: a page that is text of one process and rodata of another')
    o('frames 18 9')
    o(f"start 1 'a {shown(build(seg(5, 0), seg(5, 1), seg(4, 2)))}")
    o(f"start 2 'b {shown(build(seg(5, 0), seg(4, 1), seg(4, 2)))}")
    b = Book(o, {17: (TEXT, 1, 1), 16: (RODATA, 1, 1), 15: (DATA, 2, 1), 10: (TEXT, 1, 2), 9: (RODATA, 2, 2), 8: (DATA, 2, 2)})
    b.torn(b.moved(2, 9, 16), b.moved(1, 16, 9))


def sound_by_hand(o):
    o.note('two starts of one image, their text and rodata put on one frame by hand: sound, and shared from then on')
    o('frames 20 9')
    o(f"start 1 'a {PROGRAM}")
    o(f"start 2 'b {PROGRAM}")
    b = Book(o, {19: (TEXT, 1, 1), 18: (RODATA, 2, 1), 11: (TEXT, 1, 2), 10: (RODATA, 2, 2)})
    b.write(b.moved(2, 11, 19))
    o.all('map 2', f'from 2 {TEXT} 4')
    b.write(b.moved(1, 18, 10))
    o.all('map 1', f'from 1 {RODATA + 16} 4', 'sum', 'fork 1 3', 'end 2', f"replace 1 'c {of_pages(7)} {BSS}", 'map 1', 'map 3',
        'sum')
    o.note('a shared page put on a free frame by hand: sound, and read from there')
    b = small(o)
    b.write(b.moved(2, 14, 0))
    o.all('map 2', f'from 2 {TEXT} 4', f'from 1 {TEXT} 4', 'fork 2 3', 'end 1', 'fork 2 3', 'map 3', 'sum')
    o.note('frames in another order, holders and all')
    b = small(o)
    b.write({place(13, 1): b.words[place(14, 1)], place(13, 2): b.words[place(14, 2)], place(14, 1): b.words[place(13, 1)],
        place(14, 2): b.words[place(13, 2)]})
    o.all('map 1', f'from 2 {TEXT} 4', f'from 2 {RODATA} 4', 'end 1', 'map 2', 'sum')


def show_torn(o):
    o.note('map in a torn book: the first frame with the page in the place of the process; all places that are not 0')
    b = small(o)
    for words in ({place(14, 2): 0}, {place(14, 2): mapping(TEXT, 1, 1)}, {place(0, 2): mapping(TEXT, 2, 3)},
            {place(14, 16): 1, place(14, 7): MAX}, {place(0, 1): mapping(TEXT, 2, 1)}, {count(14): 9},
            {place(13, 2): mapping(TEXT, 2, 2)}):
        b.write(words)
        o('map 2')
        b.write({at: b.words.get(at, 0) for at in words})
    o('sum')


def part_lent(o):
    o.note('a book of which a part is lent: mappings behind it are not seen; whole frames alone')
    o('frames 30 9')
    o(lend(15))
    o(f"start 1 'pupil {PROGRAM}")
    o.all('fork 1 2', lend(30), 'fork 2 3', 'map 3', 'sum', lend(15), 'end 2', lend(30), 'end 3', lend(15), 'end 2', 'fork 1 3',
        'map 3', 'sum')
    for words in (254, 255, 256, 238, 272):
        o.all(f'lend {15 * PAGE} {words}', 'break 1 0')
    for size in (15 * PAGE - 1, 15 * PAGE, 15 * PAGE + 1, 14 * PAGE, 16 * PAGE):
        o.all(f'lend {size} 255', 'break 1 0')


def torn():
    o = Out('torn', 'Books of mappings torn by one rule at a time, and books that are sound by hand.')
    torn_words(o)
    torn_alike(o)
    sound_by_hand(o)
    show_torn(o)
    part_lent(o)
    return o
