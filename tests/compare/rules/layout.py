"""Item 5: layout, recorded segments, arguments, under a set of the machine's numbers and a flag table."""
from .aout import read_aout
from .image import parse
from .machine import DATA, PAGE, Refused, down, up


def layout(setup, segments):
    """The bss; Refused 30."""
    for i, s in enumerate(segments):
        if s.vaddr < setup.utzero or s.end > setup.limit or any(t.perm == DATA for t in segments[:i]):
            raise Refused(30)
    last = segments[-1]
    if last.perm == DATA:
        return last.vaddr + len(last.file), up(last.end)
    return up(last.end), up(last.end)


def recorded(segments, bss):
    """The image's segments as a record has them; Refused 31."""
    ranges = [(down(s.vaddr), up(bss[0]) if s.perm == DATA else up(s.end), s.perm) for s in segments]
    ranges = [r for r in ranges if r[0] < r[1]]
    if len(ranges) > 15:
        raise Refused(31)
    return ranges


def page_count(setup, ranges, bss):
    """The pages that a start takes: the image's, the bss's, the stack's."""
    return sum(end - start for start, end, _ in ranges + [(up(bss[0]), bss[1], DATA), setup.stack]) // PAGE


def load(setup, image, magic=None, alignment=True):
    """Entry, segments, recorded ranges and bss of an image, which is an a.out where its magic is given; Refused 11 to 31, 42, 43, and
    without `alignment` not 28."""
    entry, segments = parse(image, setup.flags, alignment) if magic is None else read_aout(image, magic, setup.utzero)
    bss = layout(setup, segments)
    return entry, segments, recorded(segments, bss), bss


def stack_size(strings, count):
    return (strings + 7) // 8 * 8 + 8 * (count + 1) + 8


def check_args(setup, args):
    """Refused 32, 33."""
    if any(0 in a for a in args):
        raise Refused(32)
    if stack_size(sum(len(a) + 1 for a in args), len(args)) > setup.arg_limit:
        raise Refused(33)
