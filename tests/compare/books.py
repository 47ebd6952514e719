"""Changed books of a parent and its child, each judged by a call: too many to be kept as a script.

The program has two pages of text and one of rodata, so the book is of 12 frames: text 11 and 10 and rodata 9, held by both; the
stacks, 8 to 5 and 4 to 1; frame 0 is free.
"""
from boundaries.built import build, seg
from boundaries.out import LOW, TOP, UTZERO, mapping
from rules.machine import DATA, MAX, PAGE, RODATA, TEXT
from rules.memory import WORDS
from script import Script, shown

BEGIN = ['frames 12 9', "start 1 'x " + shown(build(seg(5, 0), seg(5, 1), seg(4, 2))), 'fork 1 2']
LOOK = f'range 1 {UTZERO} 1 r'


def words():
    """Words that a place may be tried with."""
    pages = UTZERO - PAGE, UTZERO, UTZERO + PAGE, UTZERO + 2 * PAGE, UTZERO + 3 * PAGE, LOW, TOP - PAGE, TOP
    yield from (mapping(page, n, perm) for page in pages for n in (1, 2, 3, 17) for perm in (TEXT, RODATA, DATA))
    yield from (mapping(UTZERO, n, perm) for n, perm in ((0, 1), (1, 0), (1, 4), (2, 15), (16, 1), (255, 1)))
    yield from (0, 1, 2, 3, 16, 17, UTZERO, 2**63, mapping(2**63 + UTZERO, 1, 1), MAX)


def changed(book):
    """Changes of the book, each as places of it and their words."""
    frames = range(len(book) // WORDS)
    at_place, at_count = (lambda i, n: WORDS * i + n - 1), (lambda i: WORDS * i + 16)
    holding = {i: [n for n in range(1, 17) if book[at_place(i, n)]] for i in frames}
    # Every place with every word: by itself, and with the count that the frame then has.
    for i in frames:
        for n in range(1, 17):
            others = len([m for m in holding[i] if m != n])
            for word in words():
                yield {at_place(i, n): word}
                yield {at_place(i, n): word, at_count(i): others + (word != 0)}
    # Every count with every number up to one more than there are places, and beyond.
    yield from ({at_count(i): k} for i in frames for k in (*range(18), 2**8, 2**32 + 1, 2**63, MAX))
    # Every mapping in every other frame, with both counts, or exchanged with the one there.
    for i in frames:
        for n in holding[i]:
            for j in frames:
                here, there = at_place(i, n), at_place(j, n)
                if j != i and book[there]:
                    yield {here: book[there], there: book[here]}
                elif j != i:
                    yield {here: 0, there: book[here], at_count(i): book[at_count(i)] - 1, at_count(j): book[at_count(j)] + 1}


def changes():
    """The small book, and for each change: its words written, a call, and the words as they were."""
    script = Script()
    for line in BEGIN:
        assert script.answer(line.encode()).startswith('ok')
    book = script.w.book
    return BEGIN, [[*('word %d %d' % c for c in change.items()), LOOK, *('word %d %d' % (at, book[at]) for at in change)]
                   for change in changed(book)] + [['sum']]


def sizes():
    """Every number of words of a book of three frames, with bytes at, below and above whole frames."""
    some = [0, 1] + [PAGE * k + d for k in (1, 2, 3) for d in (-1, 0, 1) if PAGE * k + d <= 3 * PAGE]
    return ['frames 3'], [['lend %d %d' % (size, count), 'end 1'] for count in range(3 * WORDS + 1) for size in some]
