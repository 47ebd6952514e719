"""How cases are made."""
from elf import DATA, RODATA, TEXT, example, header
from elf import program as load


def build(headers, size=0, entry=65712, **other):
    """A file header, the program headers, and zeros up to `size`."""
    body = header(entry, **{'count': len(headers), **other}) + b''.join(headers)
    return body + bytes(max(0, size - len(body)))


def lines(entry, *rest):
    """A listing by hand: the entry, `kind start end` for each segment, bss as `start end`, and the pages."""
    *segments, bss, pages = rest
    return [f'entry={entry}', *(f'segment={s}' for s in segments), f'bss={bss}', f'pages={pages}']


CASES = []


def case(name, image, expected):
    """`expected` is the number of a refusal or a listing by hand."""
    CASES.append((name, image, [f'refused={expected}'] if isinstance(expected, int) else expected))


# The example of docs/RULES.md: the code (an endless `b .`) and four bytes of data follow the two headers.
EXAMPLE = example(bytes([0, 0, 0, 20]), bytes([1, 2, 3, 4]))
EXAMPLE_LISTING = lines(65712, 'text 65536 69632', 'data 69632 73728', '69816 77824', 7)

# Text alone, and text with one more header.
ONE = [load(TEXT, 0, 65536, 180, 180)]
ONE_LISTING = lines(65712, 'text 65536 69632', '69632 69632', 5)


def two(second, size=240, **other):
    return build(ONE + [second], size=size, **other)


# Three segments; the bss takes the rest of the data's page and one more.
THREE = [load(TEXT, 0, 65536, 256, 256), load(RODATA, 256, 69888, 64, 64), load(DATA, 320, 74048, 32, 5000)]
THREE_LISTING = lines(65712, 'text 65536 69632', 'rodata 69632 73728', 'data 73728 77824', '74080 81920', 8)
