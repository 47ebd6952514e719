"""Images for the scripts: the example with fields changed, and images of a few headers."""
from elf import change, header, program
from rules.machine import PAGE
from random_images import EXAMPLE

from .out import UTZERO

H1, H2 = 64, 120          # where the example's two program headers lie


def example(*changes):
    """The example with fields changed: (place, size, value)."""
    image = EXAMPLE
    for at, size, value in changes:
        image = change(image, at, size, value)
    return image


def data(**f):
    """The example with fields of its data header changed."""
    return phdr(H2, **f)


def text(**f):
    return phdr(H1, **f)


def phdr(at, base=EXAMPLE, **f):
    places = dict(kind=(0, 4), flags=(4, 4), offset=(8, 8), vaddr=(16, 8), filesz=(32, 8), memsz=(40, 8),
        align=(48, 8))
    for name, value in f.items():
        base = change(base, at + places[name][0], places[name][1], value)
    return base


def build(*headers, entry=UTZERO, body=b'\x1f\x20\x03\xd5abcd'):
    """An image of these program headers."""
    return header(entry, len(headers)) + b''.join(program(*h) for h in headers) + body


def seg(flags, page, filesz=8, memsz=8, at=0, kind=1, base=UTZERO, align=PAGE):
    """A program header for `build`: the page counts from `base`; `at` is its place in the page and the file."""
    return flags, at, base + PAGE * page + at, filesz, memsz, kind, align


def many(count, *more):
    """A text page, then rodata pages, `count` segments in all, then more headers."""
    return build(seg(5, 0, 64, 64), *(seg(4, k, 1, 1) for k in range(1, count)), *more)


def long_image():
    """File bytes over three pages, the table behind them, an offset and address a page apart."""
    body = bytes(1 + (k * 7 + k // 251) % 255 for k in range(2 * PAGE + 300))
    table = 64 + len(body)
    heads = (program(5, 100, UTZERO + 100, PAGE + 50, PAGE + 50) + program(4, 4000, UTZERO + 2 * PAGE + 4000, 200,
        5000) + program(6, PAGE + 10, UTZERO + 5 * PAGE + 10, PAGE + 90, 2 * PAGE + 5))
    return header(UTZERO + 100, 3, table) + body + heads
