"""Plan 9's a.out, the other form of an image (request 9)."""
from .image import Segment, check
from .machine import DATA, TEXT, up

HEADER = 32


def read_aout(image, magic, utzero):
    """The entry and the segments of an a.out with this magic; Refused 42, 43, 19, 27."""
    def word(i):
        return int.from_bytes(image[4 * i:4 * (i + 1)], 'big')
    check(42, len(image) >= HEADER)
    check(42, word(0) == magic)
    # Of the eight words syms, spsz and pcsz (4, 6 and 7) aren't read.
    text, data, bss, entry = word(1), word(2), word(3), word(5)
    behind = HEADER + text                     # where data lies in the file
    check(43, behind + data <= len(image))
    check(19, entry % 4 == 0)
    check(27, utzero + HEADER <= entry < utzero + behind)
    segments = [Segment(utzero, behind, image[:behind], TEXT)]
    if data != 0 or bss != 0:
        segments.append(Segment(up(utzero + behind), data + bss, image[behind:behind + data], DATA))
    return entry, segments
