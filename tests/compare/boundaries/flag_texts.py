"""The lines of a file that say a flag table, and the line `flags` of a script."""
from rules.flags import BUILT_IN, WORDS, table_lines
from rules.machine import MAX, PAGE
from script import shown

from .built import build, seg
from .flags import ACCEPTED, PARTNER, SECOND, give, with_row
from .out import Out

WORD = list(WORDS.values())


def lines(words, name='flags', sign='=', end='\n'):
    """The lines, with anything for a word."""
    return [f'{name}{row}{sign}{word}{end}'.encode() for row, word in enumerate(words)]


def own(**how):
    """The built-in table's lines."""
    return lines([WORDS[code] for code in BUILT_IN], **how)


def with_line(row, line):
    """The built-in table's bytes with another line in a row's place."""
    some = own()
    return b''.join(some[:row] + [line] + some[row + 1:])


def with_word(row, word):
    return with_line(row, f'flags{row}={word}\n'.encode())


def form():
    """Under what they show: bytes that are not as described, beside some that are."""
    some = own()
    whole = b''.join(some)
    yield 'no bytes, a line feed, one line, and each number of lines', [
        b'', b'\n', *(b''.join(some[:k]) for k in range(1, 9)), *(b''.join(some[k:]) for k in range(1, 8))]
    yield 'each line missing, twice, empty', [
        *(b''.join(some[:k] + some[k + 1:]) for k in range(8)), *(b''.join(some[:k + 1] + some[k:]) for k in range(8)),
        *(with_line(k, b'\n') for k in range(8))]
    yield 'other orders: two exchanged, rows turned round, all twice', [
        *(b''.join(some[:k] + [some[k + 1], some[k]] + some[k + 2:]) for k in range(7)), b''.join(some[::-1]),
        b''.join(some[1:] + some[:1]), whole + whole]
    yield 'the words exchanged instead of the lines, which are then a table against the rules', [
        b''.join(lines([WORDS[code] for code in rows])) for rows in (BUILT_IN[::-1], BUILT_IN[1:] + BUILT_IN[:1])]
    yield 'the last line feed missing; a byte after the last; a ninth line', [
        whole[:-1], *(whole[:-1] + end for end in (b'\r', b'\0', b' ', b' \n', b'\r\n')), b'\n' + whole,
        *(whole + after for after in (b'\n', b'\0', b' ', b'#', b'\r', b'0', b'x', b'flags8=refused\n', b'flags0=refused\n'))]
    yield 'line ends: two bytes, the other byte, none, an empty line between', [
        *(b''.join(own(end=end)) for end in ('\r\n', '\n\r', '\r', '', ';', '\n\n')), b'\n'.join(some)]
    yield 'the number of a row: none, another, one more, two digits, after a space', [
        with_line(row, f'flags{number}=refused\n'.encode()) for row, numbers in (
        (7, ('', '6', '8', '07', '70', '77', ' 7', '7 ', '+7', '-7', 'x', '７')), (0, ('', '1', '00', 'o', 'O'))) for number in numbers]
    yield 'the name: other letters, more or fewer, spaces, signs', [
        *(with_line(0, f'{name}=refused\n'.encode()) for name in (
        'Flags0', 'FLAGS0', 'flag0', 'flagss0', 'lags0', 'flags', 'flags[0]', 'flags_0', ' flags0', 'flags0 ', '\tflags0',
        '\ufeffflags0', '#flags0', '0', '')),
        *(b''.join(own(sign=sign)) for sign in (':', '', ' = ', '==', '= ', ' ')), b''.join(own(name='FLAGS')), whole.upper(),
        b''.join(f'{row}={WORDS[code]}\n'.encode() for row, code in enumerate(BUILT_IN))]
    yield 'the word: other letters, more or fewer, spaces, codes, two of them', [
        with_word(row, word) for row, words in (
        (4, ('', 'rodat', 'rodataa', 'odata', 'ro', 'Rodata', 'RODATA', 'rodata ', ' rodata', 'ro data', 'ro-data', 'rodata\t',
        'rodata\0', 'rodata rodata', 'rodatarodata', 'rodata,refused', '2', '02', 'r--', 'none', '-')),
        (5, ('', 'tex', 'textt', 'ext', 'Text', 'TEXT', 'text ', 'texte', '1', '5')),
        (6, ('', 'dat', 'dataa', 'ata', 'Data', 'DATA', 'date', '3', '6', 'rwdata', 'datarodata')),
        (7, ('', 'refuse', 'refusedd', 'efused', 'Refused', 'REFUSED', 'refuse d', '0', '7'))) for word in words]


def each_row():
    """Every row with every word."""
    return [with_word(row, word) for row in range(8) for word in WORD]


def each_byte():
    """The built-in table's lines with each byte left out, one less and one more; and each beginning of them."""
    whole = table_lines(BUILT_IN)
    for i, b in enumerate(whole):
        before, after = whole[:i], whole[i + 1:]
        yield from (before, before + after, before + bytes([b - 1]) + after, before + bytes([b + 1]) + after)


def flag_texts():
    o = Out('flag-texts', 'The lines of a file that say a flag table, and the line flags.')
    # What an image with flags 4 and one with flags 6 after a text show of a table.
    four, six = (shown(build(seg(5, 0), seg(flags, 1))) for flags in (4, 6))
    def read(text):
        o('flags', shown(text))
    def here():
        """Lines that show which table is there."""
        for image in (four, six):
            o('start', 1, "'x", image)
            o.all(f'range 1 {SECOND} 1 r', f'range 1 {SECOND} 1 w', 'end 1')
    o('frames 6 9')
    o.note('tables that are accepted')
    for rows in ACCEPTED:
        read(table_lines(rows))
        here()
    o.note('from a file')
    o('flags @tests/compare/partner.flags')
    here()
    o.note('every row with every word')
    for text in each_row():
        read(text)
    for note, some in form():
        o.note(note)
        for text in some:
            read(text)
    o.note('the table is the last one that was accepted')
    here()
    o.note("the built-in table's lines with a byte left out, one less, one more; and each beginning of them")
    read(table_lines(PARTNER))
    for text in each_byte():
        read(text)
    here()
    o.note('the line flags: eight codes up to 255, or bytes, and nothing else')
    o.all('flags', 'Flags 0 0 0 0 2 1 3 0', 'flag 0 0 0 0 2 1 3 0', 'flags0 0 0 0 2 1 3 0', 'flags ')
    for rest in ('0', '00', '1', '12', '0 0', '0 0 0 0', '0 0 0 0 2 1 3', '0 0 0 0 2 1 3 0 0', '0 0 0 0 2 1 3 0 ',
            ' 0 0 0 0 2 1 3 0', '0  0 0 0 0 2 1 3 0', "'0 0 0 0 2 1 3 0", '0 0 0 0 2 1 3 256', '256 0 0 0 2 1 3 0', '0 0 0 0 2 1 3 257',
            '0 0 0 0 2 1 3 65536', f'0 0 0 0 {2**32 + 2} 1 3 0', f'0 0 0 0 2 1 3 {MAX}', f'0 0 0 0 2 1 3 {MAX + 1}', '0 0 0 0 2 1 3 -1',
            '0 0 0 0 2 1 3 x', '0 0 0 0 0x2 1 3 0', 'refused refused refused refused rodata text data refused', '- - - - - - - -', '-',
            "'", "'flags0=refused", 'flags0=refused', 'zz', '@tests/compare/no-such-file', '@/dev/zero', '@tests/compare/example.elf',
            '00000000020103 0'):
        o('flags', rest)
    o.note('the table is still the last one that was accepted; the codes may have zeros before them')
    here()
    o('flags 0 00 000 0000000000000000000000000 02 001 0003 0')
    here()
    o.note('codes are handed over whatever they are, 255 too; the lines of a file only by the rules')
    give(o, with_row(7, 255))
    here()
    for rows in (with_row(7, 1), with_row(4, 1)):
        read(table_lines(rows))
        o(f'rule 0 {PAGE} 0 {PAGE}')
    read(table_lines(BUILT_IN))
    here()
    return o
