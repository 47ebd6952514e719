"""The flag table: a code for each value of the low three flag bits, its rules, and the lines of a file that say one
(request 7)."""
import re

from .machine import DATA, KINDS, RODATA, TEXT, Refused

REFUSED = 0
WORDS = {REFUSED: 'refused', **KINDS}
CODES = {word.encode(): code for code, word in WORDS.items()}
EXECUTE, WRITE = 1, 2
# The built-in one.
BUILT_IN = REFUSED, REFUSED, REFUSED, REFUSED, RODATA, TEXT, DATA, REFUSED
LINES = re.compile(''.join('flags%d=(%s)\n' % (row, '|'.join(WORDS.values())) for row in range(8)).encode())


def row_ok(row, code):
    """Whether a row may have this code."""
    if row in (0, 1, 2, 3, 7):
        return code == REFUSED
    if code == TEXT:
        return row & EXECUTE != 0
    if code == DATA:
        return row & WRITE != 0
    return code in (REFUSED, RODATA)


def table_ok(table):
    """Whether every row keeps the rules."""
    return all(row_ok(row, code) for row, code in enumerate(table))


def check_table(table):
    """Refused 39."""
    if not table_ok(table):
        raise Refused(39)


def read_table(text):
    """The table that a file's bytes say; Refused 39."""
    said = LINES.fullmatch(text)
    if not said:
        raise Refused(39)
    table = tuple(CODES[word] for word in said.groups())
    check_table(table)
    return table


def table_lines(table):
    """The bytes of a file that say a table."""
    return ''.join('flags%d=%s\n' % (row, WORDS[code]) for row, code in enumerate(table)).encode()
