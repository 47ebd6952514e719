"""Sets of the machine's numbers, and calls under them."""
from histories import most_empty
from rules.machine import MAX, PAGE
from rules.setup import DEPOSIT, Setup, written
from random_images import example_at
from script import shown

from .built import build, seg
from .out import E, Out, count, lend, mapping, place, run_of, words

K64 = 65536
FAR = 2**47


def smallest(stack, utzero=PAGE):
    """The smallest address space with a stack of so many bytes: one page for the image, one guard page."""
    top = utzero + 2 * PAGE + stack
    return Setup(utzero, top, stack, top)


# Sets that keep the conditions: each number at its bounds, alone and together.
ACCEPTED = [
    smallest(PAGE), smallest(PAGE)._replace(uaddrtop=5 * PAGE), smallest(PAGE)._replace(uaddrtop=FAR),
    smallest(16 * PAGE), smallest(16 * PAGE)._replace(uaddrtop=20 * PAGE), smallest(2 * PAGE, 16 * PAGE),
    Setup(PAGE, 5 * PAGE, PAGE, 5 * PAGE),
    Setup(PAGE, K64, PAGE, K64), Setup(PAGE, K64, 4 * PAGE, K64), Setup(PAGE, K64, 13 * PAGE, K64),
    Setup(2 * PAGE, 15 * PAGE, 2 * PAGE, K64), Setup(13 * PAGE, K64, PAGE, K64), Setup(3 * PAGE, 10 * PAGE, PAGE, 11 * PAGE),
    Setup(PAGE, FAR, 16 * PAGE, FAR), Setup(PAGE, FAR, PAGE, FAR), Setup(PAGE, FAR - PAGE, 16 * PAGE, FAR),
    smallest(16 * PAGE, FAR - 18 * PAGE), smallest(PAGE, FAR - 3 * PAGE),
    *(DEPOSIT._replace(ustksize=PAGE * k) for k in (1, 2, 3, 5, 15, 16)),
    DEPOSIT._replace(ustktop=FAR - PAGE), DEPOSIT._replace(utzero=PAGE), DEPOSIT._replace(utzero=2**32),
    Setup(K64, 2**32, 8 * PAGE, 2**32), Setup(K64, 2**31, 4 * PAGE, 2**32), Setup(2**32, 2**40, 7 * PAGE, 2**41)]


def beside(setup, **numbers):
    """The set with numbers changed, for each value given: every one as the only change."""
    return [setup._replace(**{name: value}) for name, values in numbers.items() for value in values]


def conditions():
    """Under what they show: sets at a bound of a condition, one below it and one above it."""
    school = Setup(2 * PAGE, 14 * PAGE, 2 * PAGE, K64)
    off = lambda number: [number - 1, number + 1, number - PAGE // 2, number + PAGE - 1]
    yield 'multiples of 4,096', [school] + beside(
        school, **{name: off(number) for name, number in zip(Setup._fields, school.numbers)})
    yield 'UTZERO at least 4,096', beside(school, utzero=[0, 1, PAGE - 1, PAGE, PAGE + 1])
    yield 'USTKSIZE at least 4,096', beside(school, ustksize=[0, 1, PAGE - 1, PAGE, PAGE + 1])
    yield 'USTKSIZE at most 65,536', beside(DEPOSIT, ustksize=[15 * PAGE, K64 - 1, K64, K64 + 1, 17 * PAGE, 2**32, 2**46])
    yield 'USTKSIZE below USTKTOP', beside(smallest(16 * PAGE)._replace(uaddrtop=FAR), ustktop=[
        0, PAGE, 15 * PAGE, K64, 17 * PAGE, 18 * PAGE, 19 * PAGE, 20 * PAGE])
    yield 'UTZERO + 8,192 at most USTKTOP - USTKSIZE', beside(
        school, utzero=[9 * PAGE, 10 * PAGE, 11 * PAGE, 12 * PAGE, 14 * PAGE], ustktop=[5 * PAGE, 6 * PAGE, 7 * PAGE])
    yield 'UTZERO + 8,192 past 2^64', beside(school, utzero=[2**64 - 3 * PAGE, 2**64 - 2 * PAGE, 2**64 - PAGE, MAX])
    yield 'USTKTOP at most UADDRTOP', beside(school, uaddrtop=[13 * PAGE, 14 * PAGE - 1, 14 * PAGE, 14 * PAGE + 1, 15 * PAGE, 0])
    yield 'UADDRTOP at most 2^47', beside(DEPOSIT._replace(ustktop=FAR - PAGE), uaddrtop=[
        FAR - PAGE, FAR - 1, FAR, FAR + 1, FAR + PAGE, 2**63, 2**64 - PAGE, MAX])
    yield 'USTKTOP and UADDRTOP past 2^47', [
        DEPOSIT._replace(ustktop=top, uaddrtop=top) for top in (FAR - PAGE, FAR, FAR + PAGE, 2**48, 2**64 - PAGE)]
    yield 'all the same', [Setup(n, n, n, n) for n in (0, 1, PAGE, K64, FAR, MAX)]


def program(setup):
    """The example linked at UTZERO, or a page of text where there is room for no more."""
    if setup.limit - setup.utzero < 3 * PAGE:
        return build(seg(5, 0, base=setup.utzero), entry=setup.utzero)
    return example_at(setup.utzero)


def page_at(address, memory=8):
    """A page of text."""
    return shown(build(seg(5, 0, memsz=memory, base=address), entry=address))


def hand(o, setup, as_lines=False):
    """Hand a set over: its numbers, or the lines of a file that say them."""
    o('numbers', shown(written(setup)) if as_lines else '%d %d %d %d' % setup.numbers)


def looks(o, setup):
    """Strings and ranges of process 1, at the ends of the image, the stack and the address space."""
    utzero, top, size, end = setup.numbers
    low, limit = setup.low, setup.limit
    o.all(f'from 1 {top - 32} 32', f'string 1 {top - 4} 9', f'string 1 {top} 1', f'string 1 {end} 1', f'string 1 {end + 1} 0')
    for a, k in ((utzero - 1, 1), (utzero, 1), (utzero, PAGE), (limit, 1), (low - 1, 1), (low, size), (low, size + 1), (top - 1, 1),
            (top, 0), (top, 1), (top + 1, 0), (end - 1, 1), (end, 0), (end, 1), (end + 1, 0), (FAR, 0)):
        o.all(f'range 1 {a} {k} r', f'range 1 {a} {k} w')


def edges(o, setup, bss):
    """Images and breaks at UTZERO and limit."""
    utzero, top, _, end = setup.numbers
    limit = setup.limit
    for address, memory in ((utzero - PAGE, 8), (limit - PAGE, PAGE), (limit - PAGE, PAGE + 1), (limit, 8), (setup.low, 8)):
        o('start', 2, "'x", page_at(address, memory))
        o('end 2')
    for a in (0, limit - 1, limit, limit + 1, limit + PAGE, top, end, MAX, bss, bss - 1):
        o(f'break 1 {a}')
        o(f'rule {utzero} {limit} 0 {a}')


def second(o, setup, own, image):
    """Bytes and arguments at the ends of the stack; a fork with the record's list, its program replaced; what ends each process."""
    utzero, top, _, end = setup.numbers
    low = setup.low
    o.all(f"to 1 {low} 'low", f"to 1 {top - 3} 'end", f'push 1 0 {low + 16}', f'push 1 0 {top - 16}', f"push 1 {utzero} {top} 'a")
    o.all(f'fork 1 2 {utzero} {utzero + PAGE} 1 {DEPOSIT.low} {DEPOSIT.ustktop} 3', f'fork 1 2 {own}', 'map 2',
        f'from 2 {low} 3', 'sum')
    o('replace', 2, "'new", image, top - 24)
    o.all(f'from 2 {top - 24} 24', 'sum')
    o('replace', 2, "'all", page_at(utzero, setup.limit - utzero), top - 24)
    o.all('sum', f'push 1 0 {top - 8}', f'push 1 0 {low}', f'to 2 {top - 1} 6162', 'sum')
    o('start', 3, "'x", image)
    o.all(f'from 3 {end} 0', f'from 3 {end + 1} 0', 'sum')


def life(o, setup, as_lines):
    """Processes under a set, along its bounds."""
    utzero, top, size, _ = setup.numbers
    image, stack = shown(program(setup)), f'{setup.low} {top} 3'
    # Pages, segments and bss start of the program.
    if setup.limit - utzero < 3 * PAGE:
        pages, own, bss = 1, f'{utzero} {utzero + PAGE} 1 ' + stack, utzero + PAGE
    else:
        pages, own, bss = 3, f'{utzero} {utzero + PAGE} 1 {utzero + PAGE} {utzero + 2 * PAGE} 3 ' + stack, utzero + 4280
    o('frames', 2 * (pages + size // PAGE) + 1, 9)
    hand(o, setup, as_lines)
    o('start', 1, "'lex", image, "'lex", "'mot")
    o.all('map 1', 'sum')
    looks(o, setup)
    edges(o, setup, bss)
    second(o, setup, own, image)


def quarter(o, stack):
    """Empty arguments up to a quarter of a stack, and one more."""
    setup = smallest(stack)
    most, image = most_empty(setup), shown(program(setup))
    o('frames', stack // PAGE + 1, 9)
    hand(o, setup)
    for count in (most + 1, most):
        o('start', 1, "'x", image, *['-'] * count)
    o(f'push 1 0 {setup.ustktop}', *['-'] * (most + 1))
    o('sum')


def one_argument(o, stack):
    """One argument up to a quarter of a stack, pushed, and read by replace."""
    setup = smallest(stack)
    top, limit, image = setup.ustktop, setup.arg_limit, shown(program(setup))
    def replace(at, length, pointers):
        """A string written to the stack, and its pointer."""
        o('to', 1, at, run_of('c', length))
        o('to', 1, pointers, words(at, 0))
        o('replace', 1, "'y", image, pointers)
    o('frames', stack // PAGE + 1, 9)
    hand(o, setup)
    o('start', 1, "'x", image)
    for length in (limit - 24, limit - 25):
        o(f'push 1 0 {top}', run_of('b', length))
    for length in (limit - 25, limit - 24, limit):
        replace(setup.low, length, setup.low + 2 * limit)
    o('sum')
    if stack < 16 * PAGE:
        for length in (limit, limit - 1):
            replace(top - length, length, top - limit - 16)
        o('sum')


def ten(setup, n, child):
    """A line for each of the ten calls, and the break's rule."""
    image = shown(program(setup))
    return [f"start {child} 'x {image}", f"replace {n} 'x {image} {setup.ustktop - 8}", f'push {n} 0 {setup.ustktop}',
        f'break {n} 0', f'fork {n} {child}', f'fork {n} {child} 0 0 0', f'range {n} 0 0 r',
        f'from {n} {setup.low} 1', f'to {n} {setup.low} 61', f'string {n} {setup.low} 1', f'end {n}', 'rule none none 0 0',
        'rule 70000 73728 0 0', f'rule 5 4096 9 {MAX}']


def order(o):
    """38 among the numbers that come first, in every call."""
    school = Setup(PAGE, K64, PAGE, K64)
    broken = school._replace(uaddrtop=K64 - PAGE)
    o.note('38 after 1, before 2, 3, 4 and 5, and before 32 of the rule; nothing changes, and map, sum, name, word and lend go on')
    o('frames 9 9')
    hand(o, school)
    o('start', 1, "'lex", shown(program(school)))
    o('sum')
    hand(o, broken)
    o.all(*ten(school, 1, 2), 'sum', 'map 1', 'map 2', "name 'name")
    o.all(f'lend {8 * PAGE} 153', *ten(school, 1, 2), lend(9))
    o.all('word 0 7', *ten(school, 17, 17), *ten(school, 3, 1), 'word 0 0', 'sum')
    hand(o, school)
    o.note("words of the book: pages from UTZERO to below UADDRTOP, of a living process and of a dead one")
    for page in (0, PAGE, 2 * PAGE, school.limit, school.low, K64 - PAGE, K64, FAR - PAGE, FAR):
        for n in (1, 2):
            o.all(f'word {place(0, n)} {mapping(page, n, 3)}', f'word {count(0)} 1', 'break 1 0')
            o.all(f'word {place(0, n)} 0', f'word {count(0)} 0')
    o('break 1 0')
    o.note('2 before 3, 3 before 4 and 5')
    o.all('word 0 7', *ten(school, 17, 17)[:11], 'word 0 0', *ten(school, 17, 1)[:11], *ten(school, 2, 1)[:11], *ten(school, 1, 1))
    o('sum')


def fits(o):
    """Starts, arguments and breaks that fit one set and not another."""
    def start(setup, image, frames=9, *args):
        o('frames', frames, 9)
        hand(o, setup)
        o('start', 1, "'x", shown(image), *args)
    o.note('a start that fits one set and not another: its pages below limit, its address, the frames, the arguments')
    for top in (5, 6):
        start(Setup(PAGE, PAGE * top, PAGE, PAGE * top), example_at(PAGE))
    for utzero in (K64 - PAGE, K64, K64 + PAGE):
        start(DEPOSIT._replace(utzero=utzero), example_at(K64))
    for stack in (3, 4, 5):
        start(DEPOSIT._replace(ustksize=stack * PAGE), example_at(K64), 7)
    for stack in (3, 4):
        start(DEPOSIT._replace(ustksize=stack * PAGE), example_at(K64), 7, *['-'] * 453)
    o.note('a break that fits one set and not another')
    for top in (8, 9, 10):
        start(Setup(PAGE, PAGE * top, PAGE, PAGE * top), example_at(PAGE))
        o.all(f'break 1 {6 * PAGE}', f'break 1 {7 * PAGE}', f'break 1 {7 * PAGE + 1}', 'sum')


# A set that changes between two calls of one script: each call answers by the set handed to it.

def other_stack(o):
    o.note('another stack: the book is torn; the old one again: it is sound')
    o.fresh(frames=9)
    for other in (DEPOSIT._replace(ustksize=5 * PAGE), DEPOSIT._replace(ustksize=3 * PAGE), DEPOSIT._replace(ustktop=FAR - PAGE),
            smallest(PAGE), DEPOSIT._replace(ustktop=FAR - PAGE, uaddrtop=FAR - PAGE)):
        hand(o, other)
        o.all(f'range 1 {FAR} 0 r', f'range 1 {K64} 1 r', 'break 1 0', f'from 1 {DEPOSIT.low} 4', f"start 2 'y {E}", 'fork 1 2')
        hand(o, DEPOSIT)
        o.all(f'range 1 {FAR} 0 r', 'sum')
    o.note('with no process left, any set will do')
    o('end 1')
    for other in (smallest(PAGE), smallest(3 * PAGE, FAR - 5 * PAGE), DEPOSIT):
        hand(o, other)
        o('start', 1, "'y", shown(program(other)))
        o.all('sum', 'end 1')


def other_utzero(o):
    o.note('another UTZERO: sound up to the lowest page, torn above it; what starts lower is torn under the old one')
    o.fresh(frames=9)
    for utzero in (K64 + 2 * PAGE, K64 + PAGE, K64, K64 - PAGE, PAGE):
        hand(o, DEPOSIT._replace(utzero=utzero))
        o.all(f'range 1 {FAR} 0 r', f'range 1 {K64} 1 r', 'break 1 0', f'from 1 {DEPOSIT.low} 4')
    lower = DEPOSIT._replace(utzero=PAGE)
    o('frames 14 9')
    hand(o, lower)
    o('start', 1, "'low", page_at(PAGE))
    o('start', 2, "'y", E)
    for setup in (DEPOSIT, lower):
        hand(o, setup)
        o.all('break 2 0', 'end 1')
    hand(o, DEPOSIT)
    o.all('break 2 0', 'sum')


def other_uaddrtop(o):
    o.note('another UADDRTOP: the same book, other ranges')
    setup = Setup(PAGE, 2**32, PAGE, 2**32)
    o('frames 9 9')
    hand(o, setup)
    o('start', 1, "'x", shown(program(setup)))
    for end in (2**32, 2**32 + PAGE, FAR):
        hand(o, setup._replace(uaddrtop=end))
        o.all(*(f'range 1 {a} 0 r' for a in (2**32, 2**32 + 1, 2**32 + PAGE, 2**32 + PAGE + 1, FAR, FAR + 1)))
        o.all(f'string 1 {end} 3', 'break 1 0')
    o.note("a refused set of lines leaves the set; frames goes back to the deposit machine's")
    hand(o, setup)
    for refused in (written(setup)[:-1], written(setup._replace(ustktop=2**31 + 1))):
        o('numbers', shown(refused))
        o(f'range 1 {2**32 + 1} 0 r')
    o.all('break 1 0', 'sum', 'frames 9 9', f'rule 0 {DEPOSIT.limit} 0 {DEPOSIT.limit}', f"start 1 'x {E}",
        f'range 1 {FAR} 0 r', 'sum')


def sets():
    o = Out('sets', "Sets of the machine's numbers: calls under each, along its bounds; each condition one off; sets that change.")
    o.note("no frames: the deposit machine's numbers, then what is handed over")
    o.all('frames 0', f'rule 0 {DEPOSIT.limit} 0 {DEPOSIT.limit}', f'rule 0 {DEPOSIT.limit} 0 {DEPOSIT.limit + 1}')
    hand(o, smallest(PAGE))
    o.all('rule 0 8192 0 8192', 'rule 0 8192 9 8193', "start 1 'x 00")
    hand(o, Setup(0, 0, 0, 0))
    o.all('rule 0 8192 0 8192', "start 1 'x 00", 'range 1 0 0 r', 'sum')
    for i, setup in enumerate(ACCEPTED):
        o.note('UTZERO=%d USTKTOP=%d USTKSIZE=%d UADDRTOP=%d' % setup.numbers)
        life(o, setup, i % 2)
    o.note('arguments: a quarter of each stack')
    for pages in range(1, 17):
        quarter(o, PAGE * pages)
    for pages in (1, 3, 16):
        one_argument(o, PAGE * pages)
    o('frames 1 9')
    for note, some in conditions():
        o.note('a condition, at its bound and one off: ' + note)
        for setup in some:
            hand(o, setup)
            o.all('end 1', f'rule 0 {PAGE} 0 {PAGE}')
    order(o)
    fits(o)
    other_stack(o)
    other_utzero(o)
    other_uaddrtop(o)
    return o
