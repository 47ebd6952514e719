"""Item 6: the break's rule."""
from .machine import MAX, PAGE, Refused, up


def rule(setup, bss, free, address):
    """The answer's value and the new bss; Refused 38, 39, 32, 33, 34."""
    setup.check()
    if bss is None:
        raise Refused(32)
    start, end = bss
    if address == 0:
        return start, bss
    if address < start:
        raise Refused(33)
    new = up(address)
    if new > MAX:
        raise Refused(33)
    if new > setup.limit:
        raise Refused(34)
    if new > end and new - end > PAGE * free:
        raise Refused(33)
    return 0, (start, new)
