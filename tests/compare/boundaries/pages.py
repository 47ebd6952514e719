"""Request 3: the pages of a segment, by where the file's part of a page begins and ends, in frames that hold other bytes."""
from elf import header, program
from rules.flags import BUILT_IN
from rules.image import parse
from rules.machine import PAGE, down, up

from .out import E, TOP, UTZERO, Out

# Where file bytes begin in their first page, and end, counted from that page on: one below, at and one above the end of a page.
BEGINS = 0, 1, PAGE - 1
ENDS = 1, 2, PAGE - 1, PAGE, PAGE + 1, 2 * PAGE - 1, 2 * PAGE, 2 * PAGE + 1
PLACES = [(a, b) for a in BEGINS for b in ENDS if a < b]
# No byte of it is 0, or what frames are filled with.
BODY = bytes(k * 7 % 241 + 1 for k in range(2 * PAGE + 1))


def image(places, more):
    """A segment for each pair of places, with so many bytes of memory behind its file bytes: the first is text, the last data. All have
    the same bytes of the file, from the first page's end on."""
    page, heads = UTZERO, b''
    for i, (a, b) in enumerate(places):
        flags = 5 if i == 0 else 6 if i == len(places) - 1 else 4
        heads += program(flags, PAGE + a, page + a, b - a, b - a + more)
        page = up(page + b + more)
    first = header(UTZERO, len(places)) + heads
    return first + bytes(PAGE - len(first)) + BODY


# Each place once; and in another order with memory behind it: to the page's end, and a page that has no file bytes.
IMAGES = {'pages.elf': image(PLACES[3:4] + PLACES[:3] + PLACES[4:11], 0),
          'pages-more.elf': image(PLACES[4:5] + PLACES[11:] + PLACES[:1], PAGE + 1)}


def read_back(o, n, name):
    """A process's bytes at both ends of its pages and of the file bytes in them."""
    for s in parse(IMAGES[name], BUILT_IN)[1]:
        end = s.vaddr + len(s.file)
        for a in sorted({down(s.vaddr), s.vaddr, up(s.vaddr + 1), down(end), end, up(end)}):
            low, high = max(a - 2, down(s.vaddr)), min(a + 2, up(s.end))
            if low < high:
                o('from', n, low, high - low)


def pages():
    o = Out('pages', 'Pages: file bytes from each place of a page to each, and pages with none, in frames that hold other bytes.')
    for name in IMAGES:
        o.note(f'{name}: frames full of 255; then, with its own argument, in frames that hold what it left; then one frame short')
        count = sum((up(s.end) - down(s.vaddr)) // PAGE for s in parse(IMAGES[name], BUILT_IN)[1]) + 4
        path = 'tests/compare/' + name
        o(f'frames {count + 1} 255')
        o(f"start 1 'x @{path} 'lex")
        o('sum')
        read_back(o, 1, name)
        o(f"replace 1 'x @{path} {TOP - 24}")
        o.all('sum', 'end 1')
        o(f"start 2 'x @{path}")
        o.all('sum', 'map 2', 'end 2')
        o(f'frames {count - 1} 255')
        o(f"start 1 'x @{path}")
        o('sum')
    o.note("frames that hold another program's bytes, by start and by replace")
    o('frames 99 255')
    for n in 1, 2:
        for name in IMAGES:
            o(f"start {n} 'x @tests/compare/{name}")
            o('sum')
            read_back(o, n, name)
            o('end', n)
    names = list(IMAGES)
    o(f"start 3 'x @tests/compare/{names[0]} 'lex")
    for name in names[1:] + names:
        o(f"replace 3 'y @tests/compare/{name} {TOP - 24}")
        o('sum')
        read_back(o, 3, name)
    o.note('frames above and below those of another process, whose pages there are all file bytes')
    o.text(f"""
        frames 120 255
        start 1 'x {E}
        start 2 'x @tests/compare/{names[0]}
        end 1
        start 3 'y @tests/compare/{names[1]}
        sum
        map 3
    """)
    read_back(o, 2, names[0])
    return o
