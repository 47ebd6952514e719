"""The lines of a file that say a set of the machine's numbers, and the line `numbers` of a script."""
from rules.machine import MAX, PAGE
from rules.setup import DEPOSIT, NAMES, Setup, written
from script import shown

from .out import Out
from .sets import ACCEPTED, conditions, smallest

SCHOOL = Setup(4096, 65536, 8192, 65536)


def lines(*numbers, names=NAMES, end='\n'):
    """The lines, with anything for a number."""
    return [f'{name}={number}{end}'.encode() for name, number in zip(names, numbers)]


def form():
    """Under what they show: bytes that are not as described, beside some that are."""
    numbers = DEPOSIT.numbers
    u, t, s, a = own = lines(*numbers)
    with_first = lambda number: b''.join(lines(number, *numbers[1:]))
    with_last = lambda number: b''.join(lines(*numbers[:3], number))
    yield 'no bytes, a line feed, lines missing', [b'', b'\n', u, u + t, u + t + s, t + s + a, u + s + a]
    yield 'lines exchanged, a line twice, five lines', [
        t + u + s + a, u + s + t + a, u + t + a + s, a + t + s + u, u + u + t + s + a, u + t + s + a + a]
    yield 'the last line feed missing; a byte after the fourth', [
        b''.join(own)[:-1], *(b''.join(own) + after for after in (b'\n', b'\0', b' ', b'#', b'\r', b'0', b'x'))]
    yield 'line ends: two bytes, the other byte, none, an empty line', [
        *(b''.join(lines(*numbers, end=end)) for end in ('\r\n', '\n\r', '\r', '')), b'\n'.join(own), b'\n' + b''.join(own)]
    yield 'the first digit not 0: a number 0, 00, a 0 before others', [
        with_first(n) for n in ('0', '00', '065536', '0065536', '000000000065536')]
    yield 'one to 15 digits', [with_first(''), *(with_last(n) for n in (
        '', 1, 10**14, 2**47 - 1, 2**47, 2**47 + 1, 2**47 + PAGE, 10**15 - PAGE, 10**15 - 1, 10**15, '0140737488355328',
        1407374883553280, 2**64, 2**64 + 2**47, 10**100))]
    yield 'digits alone: the bytes beside them, signs, points, spaces, other digits', [
        with_first(n) for n in ('6553/', '6553:', '/5536', ':5536', '+65536', '-65536', '65,536', '65536.', '65.536', ' 65536',
        '65536 ', '65 536', '0x10000', '10000h', '6.5536e4', '65536\t', '65536\0', '６５５３６', '٦٥٥٣٦', 'x')]
    names = ('utzero', 'UTZER', 'UTZEROO', 'TZERO', ' UTZERO', 'UTZERO ', '\ufeffUTZERO', 'UTZERO=', 'UTZERO:', '', 'USTKTOP',
        '#UTZERO')
    yield 'names: other letters, more or fewer, spaces, signs', [
        *(b''.join([*lines(numbers[0], names=[name]), t, s, a]) for name in names),
        b''.join(own).replace(b'=', b':'), b''.join(own).replace(b'=', b''), b''.join(own).lower()]


def each_byte():
    """The deposit machine's lines with each byte left out, one less and one more; and each beginning of them."""
    whole = written(DEPOSIT)
    for i, b in enumerate(whole):
        yield whole[:i] + whole[i + 1:]
        yield whole[:i] + bytes([b - 1]) + whole[i + 1:]
        yield whole[:i] + bytes([b + 1]) + whole[i + 1:]
        yield whole[:i]


def both():
    """Bytes that are not as described, with numbers that break a condition."""
    broken = written(SCHOOL._replace(uaddrtop=1))
    return [broken, broken[:-1], broken + b'\n', broken.replace(b'65536', b'065536'), broken.replace(b'8192', b'0'), b'x' + broken,
        broken.replace(b'=1\n', b'=\n')]


def texts():
    o = Out('texts', "The lines of a file that say a set of the machine's numbers, and the line numbers.")
    o('frames 1 9')
    def read(text):
        o('numbers', shown(text))
    def here(setup):
        """Two lines that show that this set is there."""
        o.all(f'rule 0 {setup.limit} 0 {setup.limit}', f'rule 0 {setup.limit} 0 {setup.limit + 1}')
    o.note('sets that are accepted')
    for setup in ACCEPTED:
        read(written(setup))
        here(setup)
    o.note('from a file')
    o('numbers @tests/compare/school.numbers')
    here(SCHOOL)
    for note, some in form():
        o.note(note)
        for text in some:
            read(text)
    o.note('the set is the last one that was accepted')
    here(DEPOSIT)
    for note, some in conditions():
        o.note(note + ': 38, or 37 for what cannot be said')
        read(written(smallest(PAGE)))
        for setup in some:
            read(written(setup))
            o(f'rule 0 {2 * PAGE} 9 {2 * PAGE + 1}')
    o.note('37 before 38')
    for text in both():
        read(text)
    o.note("the deposit machine's lines with a byte left out, one less, one more; and each beginning of them")
    for text in each_byte():
        read(text)
    o.note('the line numbers: four numbers, or bytes, and nothing else')
    read(written(DEPOSIT))
    o.all('numbers', 'Numbers 4096 16384 4096 16384', 'number 4096 16384 4096 16384')
    for rest in ('1', '12', '123', 'zz', 'UTZERO=4096', "'UTZERO=4096", "'", '-', '- -', '- - - -', '4096 16384', '4096 16384 4096',
            '4096 16384 4096 16384 0', '4096 16384 4096 16384 ', '4096  16384 4096 16384', "'4096 16384 4096 16384",
            'x 16384 4096 16384', '-1 16384 4096 16384', f'4096 16384 4096 {MAX + 1}'):
        o('numbers', rest)
    o.note('the set is still the last one that was accepted; the four numbers may have zeros before them')
    here(DEPOSIT)
    o('numbers 04096 0000000000000000000000016384 4096 16384')
    here(smallest(PAGE))
    return o
