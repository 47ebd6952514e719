"""Plan 9 a.out images, made word by word as a.out(6) describes them. Values are cut to their words."""
import struct

from rules.setup import DEPOSIT

HEADER = 32
NAMES = 'magic', 'text', 'data', 'bss', 'syms', 'entry', 'spsz', 'pcsz'
# arm64's, and the bit that says of it that its header is longer.
MAGIC = 4 * 28 * 28 + 7
HEADER_BIT = 0x8000


def header(**words):
    """Eight big-endian words of 32 bits; those that aren't named are 0."""
    return struct.pack('>8I', *(words.get(name, 0) % 2**32 for name in NAMES))


def build(text, data=b'', bss=0, after=b'', base=DEPOSIT.utzero, **words):
    """An image of these bytes, its entry at the text's first instruction, and what follows its data; words of its header may be
    others."""
    own = dict(magic=MAGIC, text=len(text), data=len(data), bss=bss, syms=len(after), entry=base + HEADER)
    return header(**own | words) + text + data + after


def word(image, name):
    at = 4 * NAMES.index(name)
    return int.from_bytes(image[at:at + 4], 'big')


def change(image, **words):
    """The image with words of its header changed."""
    return header(**{name: words.get(name, word(image, name)) for name in NAMES}) + image[HEADER:]


def example_at(base):
    """A small program: two words of text, the second a string; four bytes of data; zeros up to a memory size of 8,000; symbols."""
    return build(b'\x1f\x20\x03\xd5mot\0', b'data', 7996, b'symbols', base)


EXAMPLE = example_at(DEPOSIT.utzero)
