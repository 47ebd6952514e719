"""The listing program, which keeps the deposit machine's numbers and the built-in table."""
from .layout import load, page_count
from .machine import KINDS, Refused
from .setup import DEPOSIT


def listing(image, alignment=True):
    """An image's lines; without `alignment` by the rules without 28."""
    if len(image) > 32768:
        return ['refused=1']
    try:
        entry, _, ranges, bss = load(DEPOSIT, image, alignment=alignment)
    except Refused as r:
        return ['refused=%d' % r.args]
    return (['entry=%d' % entry]
            + ['segment=%s %d %d' % (KINDS[p], s, e) for s, e, p in ranges]
            + ['bss=%d %d' % bss, 'pages=%d' % page_count(DEPOSIT, ranges, bss)])
