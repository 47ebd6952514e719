"""Random sets of the machine's numbers, and flag tables, from a generator of random numbers."""
from rules.flags import REFUSED
from rules.machine import DATA, MAX, PAGE, RODATA, TEXT, down
from rules.setup import Setup


def random_set(r):
    """A set that keeps the conditions, often at one of its bounds."""
    stack = PAGE * r.choice([1, 1, 2, 3, 4, 8, 15, 16])
    room = PAGE * r.choice([2, 3, 5, 6, 10, 14, 40, r.randint(2, 3000)])     # from UTZERO to the stack
    most = 2**47 - stack - room
    utzero = r.choice([PAGE, PAGE, 2 * PAGE, 16 * PAGE, 2**32, most, down(r.randint(PAGE, most))])
    top = r.choice([utzero + room + stack] * 4 + [2**47])
    return Setup(utzero, top, stack, r.choice([top, top, min(top + PAGE, 2**47), 2**47]))


def near_set(r, setup):
    """The set with one number changed, mostly by little: it may keep the conditions or break one."""
    numbers = list(setup.numbers)
    i = r.randrange(4)
    numbers[i] = r.choice([numbers[i] + 1, numbers[i] - 1, numbers[i] + PAGE, numbers[i] - PAGE, 0, 2**47, 2**47 + PAGE, MAX])
    return Setup(*numbers)


def random_table(r, row5=(TEXT, RODATA, REFUSED)):
    """A table that keeps the rules. Without text in row 5 no image has an entry."""
    rows = r.choice([RODATA, RODATA, REFUSED]), r.choice(row5), r.choice([RODATA, RODATA, DATA, REFUSED])
    return REFUSED, REFUSED, REFUSED, REFUSED, *rows, REFUSED


def near_table(r, table):
    """The table with one row changed: it may keep the rules or break one."""
    rows = list(table)
    rows[r.choice([4, 5, 6, 7, r.randrange(8)])] = r.choice([REFUSED, TEXT, RODATA, DATA, 4, 255, r.randrange(256)])
    return tuple(rows)
