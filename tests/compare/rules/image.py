"""Item 4: the image."""
from .machine import PAGE, TEXT, Refused, down, up


class Segment:
    def __init__(self, vaddr, memsz, file, perm):
        self.vaddr, self.memsz, self.file, self.perm = vaddr, memsz, file, perm
        self.end = vaddr + memsz


def check(number, passes):
    """Refused, with this number, unless it passes."""
    if not passes:
        raise Refused(number)


def aligned(align, vaddr, offset):
    """What the alignment field asks for (request 1): 0 and 1 nothing, any other value that it has exactly one bit set
    and that address and offset agree modulo it."""
    if align in (0, 1):
        return True
    return bin(align).count('1') == 1 and vaddr % align == offset % align


def parse(image, perms, alignment=True):
    """The entry and the loadable segments, their permissions by a table; Refused 11 to 28. Without `alignment` the rules are those
    without 28, as the Rust has them."""
    def field(b, at, n):
        return int.from_bytes(b[at:at + n], 'little')
    check(11, len(image) >= 64)
    check(12, image[:4] == b'\x7fELF')
    check(13, image[4] == 2)
    check(14, image[5] == 1)
    check(15, image[6] == 1 and field(image, 20, 4) == 1)
    check(16, field(image, 16, 2) == 2)
    check(17, field(image, 18, 2) == 183)
    check(18, field(image, 54, 2) == 56)
    entry = field(image, 24, 8)
    check(19, entry % 4 == 0)
    table, count = field(image, 32, 8), field(image, 56, 2)
    check(20, table + 56 * count <= len(image))
    segments = []
    for i in range(count):
        h = image[table + 56 * i:table + 56 * (i + 1)]
        kind, flags, offset, vaddr = field(h, 0, 4), field(h, 4, 4), field(h, 8, 8), field(h, 16, 8)
        filesz, memsz, align = field(h, 32, 8), field(h, 40, 8), field(h, 48, 8)
        if kind != 1 or memsz == 0:
            continue
        check(21, filesz <= memsz)
        check(22, offset + filesz <= len(image))
        check(23, vaddr % PAGE == offset % PAGE)
        check(28, not alignment or aligned(align, vaddr, offset))
        check(24, vaddr + memsz <= 2**64 - PAGE)
        perm = perms[flags % 8]
        check(25, perm != 0)
        check(26, all(down(vaddr) >= up(s.end) for s in segments))
        segments.append(Segment(vaddr, memsz, image[offset:offset + filesz], perm))
    check(27, any(s.perm == TEXT and s.vaddr <= entry < s.vaddr + len(s.file) for s in segments))
    return entry, segments
